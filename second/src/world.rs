//! A small world of stations, ports and services: tables drawn from it, and frames aimed at their rules.

mod aim;

pub use aim::{aim, aim_message, near_miss};

use crate::draft::{Damage, Draft, Extension, Message, Packet};
use crate::image::{read_table, TABLE_IMAGE};
use crate::layers::{Kind, ACK, DEST_OPTIONS, ETHER_IPV4, ETHER_IPV6, FRAGMENT, HOP_BY_HOP, ROUTING, SYN};
use crate::random::Random;
use crate::table::{set, Action, Prefix, Prefix6, Range, Rule, State, Table, LONGEST_IDLE, RULES, SOCKETS, STATES};

const MACS: [u64; 5] = [0x021a_aaaa_aaaa, 0x021b_bbbb_bbbb, 0x0200_0000_0003, 0xffff_ffff_ffff, 0x0100_5e00_00fb];
const ADDRESSES: [u32; 8] =
    [0x0a00_0001, 0x0a00_0002, 0x0a00_0009, 0x0a01_0001, 0x0a01_0102, 0xc0a8_0001, 0xc0a8_01fe, 0xffff_ffff];
/// Some have the low bits of an IPv4 address, and nothing or little above them.
const ADDRESSES6: [u128; 9] = [
    0x2001_0db8_0000_0000_0000_0000_0000_0001,
    0x2001_0db8_0000_0000_8000_0000_0000_0001,
    0x2001_0db8_0000_0001_0000_0000_0000_0001,
    0xfe80_0000_0000_0000_0000_0000_0000_0009,
    0xfd00_0000_0000_0000_0000_0000_0a01_0001,
    0x0000_0000_0000_0000_0000_ffff_0a00_0001,
    0x0a00_0001,
    0,
    u128::MAX,
];
const PORTS: [u16; 8] = [0, 68, 443, 1_023, 1_024, 30_490, 30_501, 65_535];
const SERVICES: [u16; 4] = [0x0000, 0x1000, 0x1001, 0xffff];
const METHODS: [u16; 3] = [0x0111, 0x0112, 0x8001];
const MESSAGES: [u8; 4] = [0x00, 0x02, 0x80, 0x81];
const VLANS: [u16; 5] = [0, 1, 5, 100, 4_094];
const ETHERS: [u16; 6] = [ETHER_IPV4, ETHER_IPV4, 0x0806, ETHER_IPV6, 0x8100, 0x88f7];
const IDLES: [u32; 8] = [1, 20, 100, 100, 400, 1_000, 5_000, LONGEST_IDLE];
const REFILLS: [u16; 7] = [0, 1, 10, 100, 1_000, 1_000, 65_535];

fn prefix(random: &mut Random) -> Prefix {
    let length = random.pick(&[0, 1, 8, 8, 16, 16, 24, 24, 30, 31, 32, 32]);
    Prefix { address: random.pick(&ADDRESSES) ^ random.below(4) as u32, length }
}

fn prefix6(random: &mut Random) -> Prefix6 {
    let length = random.pick(&[0, 1, 10, 32, 48, 63, 64, 64, 65, 96, 127, 128, 128]);
    Prefix6 { address: random.pick(&ADDRESSES6) ^ u128::from(random.below(4)), length }
}

fn range(random: &mut Random) -> Range {
    let (one, other) = (random.pick(&PORTS), random.pick(&PORTS));
    match random.below(4) {
        0 => Range { low: one, high: one },
        1 => Range { low: 0, high: 65_535 },
        _ => Range { low: one.min(other), high: one.max(other) },
    }
}

/// How many of so many places each socket may hold: all of them, as many as there are between the two, or any number.
fn draw_numbers(places: u8, random: &mut Random) -> [u8; SOCKETS] {
    let [one, other] = std::array::from_fn(|_| random.between(0, places.into()) as u8);
    random.pick(&[[places; SOCKETS], [places; SOCKETS], [one, places - one], [one, other], [one, other]])
}

/// So many rules, whose ids rise from one on, and these states.
pub fn table_of(rules: usize, first_id: u16, states: &[State], mut rule: impl FnMut(usize) -> Rule) -> Table {
    let mut table = read_table(&[0xff; TABLE_IMAGE]);
    (table.rule_count, table.state_count) = (rules as u8, states.len() as u8);
    for place in 0..rules {
        table.rules[place] = Rule { id: first_id + place as u16, ..rule(place) };
    }
    table.states[..states.len()].copy_from_slice(states);
    table
}

/// A rule for UDP to one port with every other value drawn, and what it has set.
pub fn to_port(port: u16, random: &mut Random) -> Rule {
    Rule { kind: Kind::Udp, dports: Range { low: port, high: port }, set: set::KIND | set::DEST_PORTS, ..blank(random) }
}

/// A rule with every value drawn and nothing set.
pub fn blank(random: &mut Random) -> Rule {
    let places = random.between(1, 8) as u8;
    Rule {
        id: 0,
        action: Action::Allow,
        set: 0,
        dst: random.pick(&MACS),
        src: random.pick(&MACS),
        vlan: random.pick(&VLANS),
        priority: random.below(8) as u8,
        socket: random.below(SOCKETS as u64) as u8,
        ether: random.pick(&ETHERS),
        source: prefix(random),
        destination: prefix(random),
        protocol: random.pick(&[6, 17, 6, 17, 1, 0, 255]),
        source6: prefix6(random),
        destination6: prefix6(random),
        protocol6: random.pick(&[6, 17, 6, 17, 58, HOP_BY_HOP, ROUTING, FRAGMENT, DEST_OPTIONS, 255]),
        kind: if random.chance(50) { Kind::Tcp } else { Kind::Udp },
        sports: range(random),
        dports: range(random),
        service: random.pick(&SERVICES),
        method: random.pick(&METHODS),
        version: 1,
        message: random.pick(&MESSAGES),
        code: random.pick(&[0, 0, 1]),
        size: random.pick(&[0, 1, 2, 3, 5, 10, 65_535]),
        refill: random.pick(&REFILLS),
        places,
        idle: random.pick(&IDLES),
        numbers: draw_numbers(places, random),
    }
}

/// Each of these settings is set with the chance given.
fn some_of(settings: &[u32], percent: u64, random: &mut Random) -> u32 {
    settings.iter().filter(|_| random.chance(percent)).fold(0, |set, setting| set | setting)
}

const LINKS: [u32; 6] = [set::DEST_MAC, set::SOURCE_MAC, set::VLAN, set::PRIORITY, set::ETHER, set::SOCKET];
const IPV4S: [u32; 3] = [set::SOURCE, set::DESTINATION, set::PROTOCOL];
const IPV6S: [u32; 3] = [set::SOURCE6, set::DESTINATION6, set::PROTOCOL6];
pub const SOMEIPS: [u32; 5] = [set::SERVICE, set::METHOD, set::VERSION, set::MESSAGE, set::CODE];
const PORT_SETS: [u32; 2] = [set::SOURCE_PORTS, set::DEST_PORTS];

fn draw_rule(random: &mut Random) -> Rule {
    let mut rule = blank(random);
    let ips = if random.chance(40) { IPV6S } else { IPV4S };
    let form = random.below(100);
    if form < 30 {
        rule.kind = Kind::Tcp;
        rule.set = set::KIND | set::TRACKING | set::SOURCE_PORTS | some_of(&ips, 15, random);
        rule.places = random.pick(&[1, 2, 2, 3, 4, 8]);
        rule.numbers = draw_numbers(rule.places, random);
    } else if form < 50 {
        rule.kind = Kind::Udp;
        rule.set = set::KIND | set::SERVICE | some_of(&SOMEIPS, 30, random) | some_of(&PORT_SETS, 30, random);
    } else if form < 65 {
        rule.set = set::KIND | some_of(&PORT_SETS, 60, random) | some_of(&ips[..2], 30, random);
    } else if form < 80 {
        rule.set = set::ETHER | some_of(&LINKS, 20, random);
        rule.ether = random.pick(&[0x0806, 0x0806, 0x8100, 0x88f7, ETHER_IPV4, ETHER_IPV6]);
    } else if form < 92 {
        rule.set = ips[0] | some_of(&ips, 50, random);
    } else {
        rule.set = set::KIND | some_of(&PORT_SETS, 30, random) | some_of(&SOMEIPS, 20, random);
        rule.set |= some_of(&LINKS, 20, random) | some_of(&ips, 20, random);
    }
    rule.set |= some_of(&LINKS, 5, random);
    if random.chance(if rule.has(set::TRACKING) { 15 } else { 40 }) {
        rule.set |= set::RATE;
    }
    if !rule.has(set::TRACKING) && random.chance(30) {
        rule.action = Action::Block;
    }
    rule
}

/// The id of a rule, one to each table, with tracking that goes on undisturbed.
pub const STEADY: u16 = 443;
/// How many rules every table has for certain, so that much is reached in a short stream.
const CERTAIN: usize = 6;

fn certain_rules(number: u64, random: &mut Random) -> [Rule; CERTAIN] {
    let places = random.pick(&[2, 3, 3, 4]);
    let steady = Rule {
        kind: Kind::Tcp,
        sports: Range { low: 443, high: 443 },
        places,
        // Either socket may hold some, and one of them all.
        numbers: random.pick(&[[places, places], [places, places - 1], [places - 1, places]]),
        idle: random.pick(&[400, 1_000, 5_000]),
        set: set::KIND | set::SOURCE_PORTS | set::TRACKING,
        ..blank(random)
    };
    let measured = Rule {
        ether: 0x0806,
        size: [0, 2, 5][number as usize % 3],
        refill: random.pick(&[2, 100, 1_000, 65_535]),
        set: set::ETHER | set::RATE,
        ..blank(random)
    };
    let shut = Rule {
        action: Action::Block,
        kind: Kind::Udp,
        dports: Range { low: 0, high: 1_023 },
        set: set::KIND | set::DEST_PORTS | set::RATE,
        ..blank(random)
    };
    let service = Rule { kind: Kind::Udp, set: set::KIND | set::SERVICE | set::MESSAGE, ..blank(random) };
    let addressed =
        Rule { source: Prefix { address: 0xc0a8_0000, length: 16 }, set: set::SOURCE | set::PROTOCOL, ..blank(random) };
    let addressed6 = Rule {
        source6: Prefix6 { address: ADDRESSES6[0], length: 32 },
        set: set::SOURCE6 | set::PROTOCOL6,
        ..blank(random)
    };
    [steady, measured, shut, service, addressed, addressed6]
}

/// A good table. Beyond its rules and states stands what would be faulty if it were looked at.
pub fn draw_table(number: u64, random: &mut Random) -> Table {
    let count = match random.below(10) {
        0 if number > 3 => RULES,
        1 if number > 3 => random.between(30, 64) as usize,
        _ => random.between(8, 14) as usize,
    };
    let mut table = read_table(&[0xff; TABLE_IMAGE]);
    table.rule_count = count as u8;
    for place in 0..count {
        table.rules[place] = draw_rule(random);
    }
    // In every fourth table they stand behind others, which may take their frames.
    let from = if number % 4 == 3 { count - CERTAIN } else { 0 };
    table.rules[from..from + CERTAIN].copy_from_slice(&certain_rules(number, random));
    // A rule that matches everything may stand last.
    if random.chance(10) {
        table.rules[count - 1].set = 0;
    }
    number_rules(&mut table, from, random);
    table.state_count = random.pick(&[6, 6, 7, 8]);
    for state in 0..usize::from(table.state_count) {
        table.states[state] = draw_state(state, number, table.rules(), random);
    }
    table
}

/// Ids all different, which need not rise with their places.
fn number_rules(table: &mut Table, steady: usize, random: &mut Random) {
    // The last of these reaches 65,534, the highest id there is; none meets the steady rule's.
    let (first, step) = random.pick(&[(0, 1), (10, 10), (1_000, 1_000), (65_534 - 63, 1)]);
    for place in 0..table.rules().len() {
        table.rules[place].id = first + step * ((place as u16 * 7 + 3) % 64);
    }
    table.rules[steady].id = STEADY;
}

/// Each of the first states lets another event come: nearly all rules active, none, those that ask for IPv4, for a link, for UDP,
/// for IPv6.
fn draw_state(state: usize, number: u64, rules: &[Rule], random: &mut Random) -> State {
    let wanted = |rule: &Rule| match state {
        1 => false,
        2 => rule.has(set::IPV4),
        3 => rule.has(set::LINK),
        4 => rule.has(set::KIND) && rule.kind == Kind::Udp,
        5 => rule.has(set::IPV6),
        _ => true,
    };
    let marks =
        rules.iter().enumerate().filter(|(_, rule)| wanted(rule)).fold(0, |marks, (place, _)| marks | 1 << place);
    let certain = (1 << CERTAIN) - 1;
    let spared = random.next() & random.next() & if state < 6 { !certain } else { u64::MAX };
    let allows = match state {
        1 => number % 2 == 0,
        2..=5 => false,
        _ => number > 3 && random.chance(20),
    };
    State { default: if allows { Action::Allow } else { Action::Block }, marks: marks & !spared }
}

/// A table without rules is good.
pub fn draw_table_without_rules(random: &mut Random) -> Table {
    let mut table = draw_table(0, random);
    table.rule_count = 0;
    for state in &mut table.states[..STATES] {
        state.marks = 0;
    }
    table
}

/// A frame of this world, aimed at nothing.
pub fn draw_frame(random: &mut Random) -> Draft {
    let ether = match random.below(100) {
        0..=59 => ETHER_IPV4,
        60..=84 => ETHER_IPV6,
        _ => random.pick(&ETHERS),
    };
    let packet = match ether {
        ETHER_IPV4 => Packet::V4,
        ETHER_IPV6 => Packet::V6,
        _ if random.chance(20) => random.pick(&[Packet::V4, Packet::V6]),
        _ => Packet::None,
    };
    Draft {
        dst: random.pick(&MACS),
        src: random.pick(&MACS),
        tags: draw_tags(random),
        ether,
        packet,
        source: random.pick(&ADDRESSES) ^ random.below(2) as u32,
        destination: random.pick(&ADDRESSES) ^ random.below(2) as u32,
        source6: random.pick(&ADDRESSES6) ^ u128::from(random.below(2)),
        destination6: random.pick(&ADDRESSES6) ^ u128::from(random.below(2)),
        protocol: if random.chance(10) { Some(random.next() as u8) } else { None },
        ip_options: if random.chance(10) { random.between(1, 10) as usize } else { 0 },
        chain: if random.chance(40) { draw_chain(random) } else { vec![] },
        kind: if random.chance(40) { Kind::Tcp } else { Kind::Udp },
        sport: random.pick(&PORTS),
        dport: random.pick(&PORTS),
        flags: random.pick(&[SYN, SYN | ACK, ACK, ACK, 0, 0x11, 0x04]),
        tcp_options: if random.chance(15) { random.between(1, 10) as usize } else { 0 },
        messages: if random.chance(80) { draw_messages(random) } else { vec![] },
        payload: draw_payload(random),
        damage: Damage::None,
    }
}

/// Mostly one, now and then many; the more there are, the less is in them.
fn draw_messages(random: &mut Random) -> Vec<Message> {
    let (count, payload) = match random.below(100) {
        0..=59 => (1, draw_payload(random)),
        60..=79 => (2, random.pick(&[0, 9, 40])),
        80..=97 => (random.between(3, 6), random.pick(&[0, 0, 9])),
        98 => (random.between(7, 20), random.pick(&[0, 9])),
        _ => (random.between(21, 92), 0),
    };
    let least = if count == 1 || random.chance(40) { payload } else { 0 };
    (0..count).map(|_| draw_message(random.between(least as u64, payload as u64) as usize, random)).collect()
}

pub fn draw_message(payload: usize, random: &mut Random) -> Message {
    Message {
        service: random.pick(&SERVICES),
        method: random.pick(&METHODS),
        version: 1,
        message: random.pick(&MESSAGES),
        code: random.pick(&[0, 0, 1]),
        payload,
    }
}

/// Mostly short, now and then with a fragment header in it or of about as many headers as are followed.
fn draw_chain(random: &mut Random) -> Vec<Extension> {
    let length = random.pick(&[1, 1, 2, 3, 7, 8, 8, 9]);
    (0..length).map(|_| draw_extension(random)).collect()
}

fn draw_extension(random: &mut Random) -> Extension {
    let numbers = [HOP_BY_HOP, ROUTING, DEST_OPTIONS];
    let number = if random.chance(3) { FRAGMENT } else { random.pick(&numbers) };
    Extension { number, units: random.pick(&[0, 0, 0, 1, 2]) }
}

fn draw_payload(random: &mut Random) -> usize {
    match random.below(100) {
        0 => random.between(300, 1_440) as usize,
        1..=29 => random.between(10, 40) as usize,
        _ => random.below(10) as usize,
    }
}

/// Priority and VLAN id; VLAN 4,095 is read as it stands, though no rule may ask for it.
fn draw_tags(random: &mut Random) -> Vec<u16> {
    let tag = |random: &mut Random| {
        let vlan = if random.chance(10) { 4_095 } else { random.pick(&VLANS) };
        (random.below(8) << 13 | random.below(2) << 12) as u16 | vlan
    };
    match random.below(100) {
        0..=69 => vec![],
        70..=91 => vec![tag(random)],
        _ => vec![tag(random), tag(random)],
    }
}
