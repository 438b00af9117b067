//! Streams for timing: one scene's table and records, each of its frames judged many times, then the records printed; or a table alone,
//! checked many times.

use std::io::{self, Write};

use crate::draft::{Damage, Draft, Extension, Message, Packet};
use crate::image::{read_table, write_records, write_table, TABLE_IMAGE};
use crate::layers::{Addresses, Kind, ACK, DEST_OPTIONS, ETHER_IPV4, ETHER_IPV6, LONGEST_CHAIN, PROTOCOL_TCP};
use crate::random::Random;
use crate::records::{Conversation, Quadruple, Records, RUNNING};
use crate::table::{set, Action, Prefix, Prefix6, Range, Rule, State, Table, LONGEST_IDLE, PLACES, RULES, SOCKETS};
use crate::table_t::{arp, frame_a, table_t};

/// The reading of the records and of the first frame.
const START: u64 = 1_000_000;
/// The event space of each call.
const SPACE: u16 = 256;
/// Link, IPv4 and TCP headers without options.
const HEADERS: usize = 54;
const LONGEST: usize = 1_518;
const SOURCE: u32 = 0x0a00_0001;
const DESTINATION: u32 = 0x0a01_0001;
const NETWORK6: u128 = 0x2001_0db8_0000_0001 << 64;
const SOURCE6: u128 = NETWORK6 + 1;
const DESTINATION6: u128 = NETWORK6 + 0x0001_0001;
const HTTPS: u16 = 443;
const SOMEIP_PORT: u16 = 30_501;
/// As many messages as a frame over IPv4 can carry.
const MOST_MESSAGES: usize = 92;
/// The rule at a place of the larger tables is for the ports from here on.
const FIRST_PORT: u16 = 10_000;
const PORTS_A_RULE: u16 = 10;
const PORT_OF_NO_RULE: u16 = 40_000;
/// Calls for one socket before the other's turn comes.
const TURN: u32 = 100;

pub enum Scene {
    /// Each frame is judged on these records, on socket 0.
    Judged { table: Table, records: Records, frames: Vec<Vec<u8>> },
    /// A frame of each socket, and the sockets take turns.
    Alternating { table: Table, records: Records, frames: [Vec<u8>; SOCKETS] },
    /// Fresh records of this table are asked for, and refused.
    Checked(Table),
}

/// The scene that these words name.
pub fn scene(words: &[&str]) -> Option<Scene> {
    match *words {
        ["worked"] => Some(worked()),
        ["last"] => Some(ports(first_port(RULES - 1))),
        ["none"] => Some(ports(PORT_OF_NO_RULE)),
        ["held"] => Some(held()),
        ["both"] => Some(both()),
        ["six"] => Some(six(0)),
        ["chain"] => Some(six(LONGEST_CHAIN)),
        ["message"] => Some(messages(1)),
        ["bundle"] => Some(messages(MOST_MESSAGES)),
        ["codes"] => Some(codes()),
        ["dearest"] => Some(dearest()),
        ["check", name] => checked(name),
        ["grow", rules, held, length] => grow(rules.parse().ok()?, held.parse().ok()?, length.parse().ok()?),
        _ => None,
    }
}

impl Scene {
    /// Each call `times` times, one reading after the other.
    pub fn write(&self, times: u32, step: u32, output: &mut impl Write) -> io::Result<()> {
        match self {
            Scene::Judged { table, records, frames } => {
                write_images(table, records, output)?;
                let mut row = Row { reading: START, step };
                frames.iter().try_for_each(|frame| row.write(times, frame, output))?;
                output.write_all(b"P")
            }
            Scene::Alternating { table, records, frames } => {
                write_images(table, records, output)?;
                write_turns(frames, times, step, output)?;
                output.write_all(b"P")
            }
            Scene::Checked(table) => write_checked(table, times, step, output),
        }
    }
}

fn write_images(table: &Table, records: &Records, output: &mut impl Write) -> io::Result<()> {
    let random = &mut Random::new(0);
    output.write_all(b"T")?;
    output.write_all(&write_table(table, random))?;
    output.write_all(b"R")?;
    output.write_all(&write_records(records, random))
}

/// Calls of `B` one behind the other, whose readings go on.
struct Row {
    reading: u64,
    step: u32,
}

impl Row {
    fn write(&mut self, times: u32, frame: &[u8], output: &mut impl Write) -> io::Result<()> {
        output.write_all(b"B")?;
        output.write_all(&[times.to_be_bytes(), self.step.to_be_bytes()].concat())?;
        output.write_all(&self.reading.to_be_bytes())?;
        output.write_all(&[SPACE.to_be_bytes(), (frame.len() as u16).to_be_bytes()].concat())?;
        output.write_all(frame)?;
        self.reading += u64::from(times) * u64::from(self.step);
        Ok(())
    }
}

fn write_turns(frames: &[Vec<u8>; SOCKETS], times: u32, step: u32, output: &mut impl Write) -> io::Result<()> {
    let mut row = Row { reading: START, step };
    for done in (0..times).step_by(TURN as usize) {
        for (socket, frame) in frames.iter().enumerate() {
            output.write_all(&[b'S', socket as u8])?;
            row.write(TURN.min(times - done), frame, output)?;
        }
    }
    Ok(())
}

fn write_checked(table: &Table, times: u32, step: u32, output: &mut impl Write) -> io::Result<()> {
    output.write_all(b"T")?;
    output.write_all(&write_table(table, &mut Random::new(0)))?;
    for turn in 0..u64::from(times) {
        output.write_all(b"F")?;
        output.write_all(&(START + turn * u64::from(step)).to_be_bytes())?;
    }
    Ok(())
}

/// A table without a vehicle state, which is refused only once every rule has been checked; `nothing` before any has.
fn checked(name: &str) -> Option<Scene> {
    let mut table = match name {
        "worked" => table_t(),
        "ports" | "nothing" => table(RULES, Action::Block, port_rule),
        "tracked" => table(RULES, Action::Block, tracked_rule),
        "empty" => table(RULES, Action::Block, |place| allow(place, 0)),
        "full" => table(RULES, Action::Block, full_rule),
        "ipv6" => table(RULES, Action::Block, full_rule6),
        _ => return None,
    };
    table.state_count = 0;
    if name == "nothing" {
        table.rule_count = RULES as u8 + 1;
    }
    Some(Scene::Checked(table))
}

/// Table T: a frame that passes, one over its rate, one that a rule blocks, one that the default blocks.
fn worked() -> Scene {
    let (mut low, mut other) = (frame_a(), frame_a());
    low[36..38].copy_from_slice(&68u16.to_be_bytes());
    other[56] = 0x81;
    Scene::Judged { table: table_t(), records: Records::empty(START), frames: vec![frame_a(), arp(), low, other] }
}

/// Rules that differ in their range of ports, and a frame to one port.
fn ports(port: u16) -> Scene {
    let table = table(RULES, Action::Block, port_rule);
    let frame = frame(Kind::Udp, 30_491, port, 22);
    Scene::Judged { table, records: Records::empty(START), frames: vec![frame] }
}

/// All places held, and a frame of the last conversation.
fn held() -> Scene {
    let table = table(RULES, Action::Block, tracked_rule);
    Scene::Judged { table, records: running(RULES, PLACES), frames: vec![held_frame(PLACES - 1)] }
}

/// All places held, half of each rule's by each socket, which may hold no more, and a frame of the last conversation of each.
fn both() -> Scene {
    let half = PLACES / SOCKETS;
    let table = table(RULES, Action::Block, |place| Rule {
        numbers: [(PLACES / SOCKETS) as u8; SOCKETS],
        ..tracked_rule(place)
    });
    let mut records = running(RULES, PLACES);
    for slots in &mut records.sockets {
        slots[half..].fill(1);
    }
    Scene::Alternating { table, records, frames: [held_frame(half - 1), held_frame(PLACES - 1)] }
}

/// A frame of the conversation that the last rule holds in this slot.
fn held_frame(slot: usize) -> Vec<u8> {
    let draft = draft(Kind::Tcp, HTTPS, first_port(RULES - 1), 10);
    Draft { source: SOURCE + slot as u32, ..draft }.bytes(&mut Random::new(0))
}

/// Tracked rules of IPv6, a conversation of the last one held, and a segment of it behind a chain of so many headers.
fn six(headers: usize) -> Scene {
    let table = table(RULES, Action::Block, tracked_rule6);
    let mut draft = draft(Kind::Tcp, HTTPS, first_port(RULES - 1), 10);
    draft.carry(Packet::V6);
    draft.chain = vec![Extension { number: DEST_OPTIONS, units: 0 }; headers];
    let mut records = Records::empty(START);
    let quadruple = Quadruple::new(draft.addresses(), draft.sport, draft.dport);
    records.hold(RULES - 1, 0, RUNNING, 0, Conversation { quadruple, age: 0 });
    Scene::Judged { table, records, frames: vec![draft.bytes(&mut Random::new(0))] }
}

/// One rule that asks for all five settings of SOME/IP, and a datagram of so many messages that all agree.
fn messages(count: usize) -> Scene {
    bundled(1, message_rule, vec![message(); count])
}

/// Rules that differ in the return code alone, and one message with that of the last.
fn codes() -> Scene {
    bundled(RULES, |place| Rule { code: (RULES - 1 - place) as u8, ..message_rule(place) }, vec![message()])
}

/// The dearest frame: as many messages as can be, all but the last of which agree with every rule, and the last with none.
fn dearest() -> Scene {
    let mut messages = vec![message(); MOST_MESSAGES];
    messages[MOST_MESSAGES - 1].code ^= 1;
    bundled(RULES, message_rule, messages)
}

fn bundled(rules: usize, rule: fn(usize) -> Rule, messages: Vec<Message>) -> Scene {
    let draft = Draft { messages, ..draft(Kind::Udp, SOMEIP_PORT, SOMEIP_PORT, 0) };
    let table = table(rules, Action::Block, rule);
    Scene::Judged { table, records: Records::empty(START), frames: vec![draft.bytes(&mut Random::new(0))] }
}

/// A message without payload that agrees with `message_rule`.
fn message() -> Message {
    let rule = message_rule(0);
    Message {
        service: rule.service,
        method: rule.method,
        version: rule.version,
        message: rule.message,
        code: rule.code,
        payload: 0,
    }
}

/// So many tracked rules, so many places of each held, and a frame of that length that no rule matches and the default allows.
fn grow(rules: usize, held: usize, length: usize) -> Option<Scene> {
    if rules > RULES || held > PLACES || !(HEADERS..=LONGEST).contains(&length) {
        return None;
    }
    let table = table(rules, Action::Allow, tracked_rule);
    let frame = frame(Kind::Tcp, HTTPS, PORT_OF_NO_RULE, length - HEADERS);
    Some(Scene::Judged { table, records: running(rules, held), frames: vec![frame] })
}

/// A table of one state in which every rule is active.
fn table(rules: usize, default: Action, rule: fn(usize) -> Rule) -> Table {
    let mut table = read_table(&[0; TABLE_IMAGE]);
    for place in 0..rules {
        table.rules[place] = rule(place);
    }
    let marks = (0..rules).map(|place| 1 << place).sum();
    (table.rule_count, table.state_count) = (rules as u8, 1);
    table.states[0] = State { default, marks };
    table
}

fn first_port(place: usize) -> u16 {
    FIRST_PORT + PORTS_A_RULE * place as u16
}

fn allow(place: usize, settings: u32) -> Rule {
    Rule { id: 1 + place as u16, action: Action::Allow, set: settings, ..read_table(&[0; TABLE_IMAGE]).rules[0] }
}

fn port_rule(place: usize) -> Rule {
    Rule {
        ether: ETHER_IPV4,
        source: Prefix { address: 0x0a00_0000, length: 8 },
        kind: Kind::Udp,
        dports: Range { low: first_port(place), high: first_port(place) + PORTS_A_RULE - 1 },
        ..allow(place, set::ETHER | set::SOURCE | set::KIND | set::DEST_PORTS)
    }
}

fn message_rule(place: usize) -> Rule {
    Rule {
        ether: ETHER_IPV4,
        source: Prefix { address: 0x0a00_0000, length: 8 },
        kind: Kind::Udp,
        dports: Range { low: SOMEIP_PORT, high: SOMEIP_PORT },
        service: 0x1000,
        method: 0x0111,
        version: 1,
        message: 0x80,
        code: 0,
        ..allow(place, set::ETHER | set::SOURCE | set::KIND | set::DEST_PORTS | set::SOMEIP)
    }
}

fn tracked_rule(place: usize) -> Rule {
    Rule {
        kind: Kind::Tcp,
        sports: Range { low: HTTPS, high: HTTPS },
        dports: Range { low: first_port(place), high: first_port(place) },
        places: PLACES as u8,
        idle: LONGEST_IDLE,
        numbers: [PLACES as u8; SOCKETS],
        ..allow(place, set::KIND | set::PORTS | set::TRACKING)
    }
}

fn tracked_rule6(place: usize) -> Rule {
    let tracked = tracked_rule(place);
    Rule {
        set: set::ETHER | set::SOURCE6 | tracked.set,
        ether: ETHER_IPV6,
        source6: Prefix6 { address: NETWORK6, length: 64 },
        ..tracked
    }
}

/// Every setting but those of IPv6, which it cannot have too, and of SOME/IP, which a rule of kind TCP has no use for.
fn full_rule(place: usize) -> Rule {
    let tracked = tracked_rule(place);
    Rule {
        set: set::LINK | set::IPV4 | set::RATE | tracked.set,
        dst: 0x021b_bbbb_bbbb,
        src: 0x021a_aaaa_aaaa,
        vlan: 100,
        priority: 5,
        ether: ETHER_IPV4,
        source: Prefix { address: 0x0a00_0000, length: 8 },
        destination: Prefix { address: DESTINATION, length: 32 },
        protocol: PROTOCOL_TCP,
        size: 1_000,
        refill: 1_000,
        ..tracked
    }
}

/// The same with the settings of IPv6.
fn full_rule6(place: usize) -> Rule {
    let full = full_rule(place);
    Rule {
        set: full.set & !set::IPV4 | set::IPV6,
        ether: ETHER_IPV6,
        source6: Prefix6 { address: NETWORK6, length: 64 },
        destination6: Prefix6 { address: DESTINATION6, length: 128 },
        protocol6: PROTOCOL_TCP,
        ..full
    }
}

fn quadruple(place: usize, slot: usize) -> Quadruple {
    let addresses = Addresses::V4 { source: SOURCE + slot as u32, destination: DESTINATION };
    Quadruple::new(addresses, HTTPS, first_port(place))
}

/// The first places of the first rules are held by socket 0, all Running.
fn running(rules: usize, held: usize) -> Records {
    let mut records = Records::empty(START);
    for place in 0..rules {
        for slot in 0..held {
            records.hold(place, slot, RUNNING, 0, Conversation { quadruple: quadruple(place, slot), age: 0 });
        }
    }
    records
}

fn frame(kind: Kind, sport: u16, dport: u16, payload: usize) -> Vec<u8> {
    draft(kind, sport, dport, payload).bytes(&mut Random::new(0))
}

fn draft(kind: Kind, sport: u16, dport: u16, payload: usize) -> Draft {
    Draft {
        dst: 0x021b_bbbb_bbbb,
        src: 0x021a_aaaa_aaaa,
        tags: vec![],
        ether: ETHER_IPV4,
        packet: Packet::V4,
        source: SOURCE,
        destination: DESTINATION,
        source6: SOURCE6,
        destination6: DESTINATION6,
        protocol: None,
        ip_options: 0,
        chain: vec![],
        kind,
        sport,
        dport,
        flags: ACK,
        tcp_options: 0,
        messages: vec![],
        payload,
        damage: Damage::None,
    }
}

#[cfg(test)]
mod tests {
    use super::{checked, scene, set, Records, Scene, RULES, START, TABLE_IMAGE};
    use crate::answer::{Refusal, Verdict};
    use crate::image::RECORD_IMAGE;
    use crate::judge::judge;
    use crate::layers::{self, Ip};
    use crate::matching::message_agrees;
    use crate::records::FREE;

    #[test]
    fn a_checked_table_lacks_nothing_but_a_vehicle_state() {
        for name in ["worked", "ports", "tracked", "empty", "full", "ipv6"] {
            let Some(Scene::Checked(mut table)) = checked(name) else { panic!("no table {name}") };
            assert_eq!(table.check(), Err(Refusal::NO_RULE_AT_FAULT), "{name}");
            table.state_count = 1;
            assert_eq!(table.check(), Ok(()), "{name}");
        }
    }

    #[test]
    fn both_sockets_hold_half_of_all_places_and_take_turns() {
        let Some(scene @ Scene::Alternating { .. }) = scene(&["both"]) else { panic!("no scene") };
        let Scene::Alternating { table, mut records, frames } = scene else { unreachable!() };
        assert!(records.held.iter().flatten().all(|held| *held != FREE));
        assert!((0..RULES).all(|place| records.held_by(place) == [4, 4]));
        let before = records.held;
        for (socket, frame) in [0, 1].into_iter().zip(&frames) {
            let passed = judge(&table, &mut records, socket, frame, START, &mut [0; 256]).expect("judged");
            assert_eq!((passed.verdict, passed.rule), (Verdict::Passed, RULES as u16));
            let other = judge(&table, &mut records, 1 - socket, frame, START, &mut [0; 256]).expect("judged");
            assert_eq!(other.verdict, Verdict::NoSuchConversation, "the other socket does not hold it");
        }
        assert_eq!(records.held, before);

        let mut stream = Vec::new();
        Scene::Alternating { table, records: Records::empty(START), frames }
            .write(250, 1, &mut stream)
            .expect("written");
        let turns = stream[2 + TABLE_IMAGE + RECORD_IMAGE..].chunks(2 + 21 + 64).map(|turn| (turn[1], turn[6]));
        let expected = [(0, 100), (1, 100), (0, 100), (1, 100), (0, 50), (1, 50)];
        assert_eq!(turns.take(6).collect::<Vec<_>>(), expected);
    }

    #[test]
    fn a_datagram_passes_with_one_message_or_as_many_as_can_be() {
        for (name, count, length) in [("message", 1, 58), ("bundle", 92, 1_514)] {
            let Some(Scene::Judged { table, mut records, frames }) = scene(&[name]) else { panic!("no scene {name}") };
            assert_eq!((frames.len(), frames[0].len()), (1, length), "{name}");
            let someip = layers::read(&frames[0]).expect("layers").someip.expect("SOME/IP");
            assert_eq!(someip.messages().count(), count, "{name}");
            assert_eq!(table.rules[0].set & set::SOMEIP, set::SOMEIP, "{name}");
            let answer = judge(&table, &mut records, 0, &frames[0], START, &mut [0; 256]).expect("judged");
            assert_eq!((answer.verdict, answer.rule), (Verdict::Passed, 1), "{name}");
        }
    }

    #[test]
    fn the_dearest_frame_is_blocked_by_its_last_message_alone() {
        let Some(Scene::Judged { table, mut records, frames }) = scene(&["dearest"]) else { panic!("no scene") };
        let someip = layers::read(&frames[0]).expect("layers").someip.expect("SOME/IP");
        let last = |rule| someip.messages().position(|message| !message_agrees(rule, &message));
        assert!(table.rules.iter().all(|rule| last(rule) == Some(91)));
        let answer = judge(&table, &mut records, 0, &frames[0], START, &mut [0; 256]).expect("judged");
        assert_eq!(answer.verdict, Verdict::BlockedByDefault);

        let Some(Scene::Judged { table, mut records, frames }) = scene(&["codes"]) else { panic!("no scene") };
        let answer = judge(&table, &mut records, 0, &frames[0], START, &mut [0; 256]).expect("judged");
        assert_eq!((answer.verdict, answer.rule), (Verdict::Passed, table.rules[RULES - 1].id));
    }

    #[test]
    fn a_segment_over_ipv6_passes_under_the_last_rule() {
        for (name, chain) in [("six", 0), ("chain", 64)] {
            let Some(Scene::Judged { table, mut records, frames }) = scene(&[name]) else { panic!("no scene {name}") };
            let read = layers::read(&frames[0]).expect("layers");
            assert!(matches!(read.ip, Some(Ip::V6(_))));
            assert_eq!(read.transport.map(|tcp| tcp.start), Some(54 + chain), "{name}");
            let before = records.held;
            let answer = judge(&table, &mut records, 0, &frames[0], START, &mut [0; 256]).expect("judged");
            assert_eq!((answer.verdict, answer.rule), (Verdict::Passed, RULES as u16), "{name}");
            assert_eq!(records.held, before, "{name}");
        }
    }
}
