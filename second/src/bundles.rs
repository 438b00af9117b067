//! Tests of 02's request 3/12: how a UDP payload cuts into messages, and what settings and events make of several.

use crate::answer::{Verdict, NO_RULE};
use crate::image::{read_table, TABLE_IMAGE};
use crate::judge::judge;
use crate::layers::{self, Kind, Message};
use crate::records::Records;
use crate::stream::run;
use crate::table::{set, Action, Range, Rule, State, Table};
use crate::table_t::{frame_a, table_t};

/// Where the datagram of frame A starts, and its first message.
const UDP: usize = 34;
const MESSAGES: usize = 42;
const PORT: u16 = 30_501;
/// What `rule` asks for and `message` holds, by setting, and the byte of a header in which each is compared.
const ASKED: Message = Message { service: 0x1000, method: 0x0111, version: 1, message: 0x80, code: 0 };
const SETTINGS: [(u32, usize); 5] =
    [(set::SERVICE, 1), (set::METHOD, 2), (set::VERSION, 12), (set::MESSAGE, 14), (set::CODE, 15)];

/// A whole message with so many bytes behind its header.
fn message(payload: usize) -> Vec<u8> {
    let mut bytes = vec![0x10, 0x00, 0x01, 0x11, 0, 0, 0, 8 + payload as u8, 0, 1, 0, 3, 1, 1, 0x80, 0];
    bytes.resize(16 + payload, 0x55);
    bytes
}

fn with_length(mut message: Vec<u8>, length: u32) -> Vec<u8> {
    message[4..8].copy_from_slice(&length.to_be_bytes());
    message
}

/// One byte of it is another.
fn turned(mut message: Vec<u8>, byte: usize) -> Vec<u8> {
    message[byte] ^= 0x02;
    message
}

fn datagram(payload: &[u8]) -> Vec<u8> {
    let length = 8 + payload.len() as u16;
    let mut bytes = [30_491u16.to_be_bytes(), PORT.to_be_bytes(), length.to_be_bytes()].concat();
    bytes.extend([0xe8, 0xb9]);
    bytes.extend(payload);
    bytes
}

/// Frame A with another UDP payload.
fn over_ipv4(payload: &[u8]) -> Vec<u8> {
    let mut frame = frame_a()[..UDP].to_vec();
    frame[16..18].copy_from_slice(&(28 + payload.len() as u16).to_be_bytes());
    frame.extend(datagram(payload));
    sum(&mut frame);
    frame
}

/// Makes the IPv4 header's checksum right.
fn sum(frame: &mut [u8]) {
    frame[24..26].fill(0);
    let sum: u32 = frame[14..34].chunks(2).map(|w| u32::from(w[0]) << 8 | u32::from(w[1])).sum();
    let folded = (sum & 0xffff) + (sum >> 16);
    frame[24..26].copy_from_slice(&(!((folded & 0xffff) + (folded >> 16)) as u16).to_be_bytes());
}

fn over_ipv6(payload: &[u8]) -> Vec<u8> {
    let mut frame = frame_a()[..12].to_vec();
    frame.extend([0x86, 0xdd, 0x60, 0, 0, 0]);
    frame.extend((8 + payload.len() as u16).to_be_bytes());
    frame.extend([17, 64]);
    frame.extend([0x20; 32]);
    frame.extend(datagram(payload));
    frame
}

/// The messages of a frame with this payload, over either kind of IP; none where the layer is absent.
fn cut(payload: &[u8]) -> Option<Vec<Message>> {
    let [four, six] = [over_ipv4(payload), over_ipv6(payload)].map(|frame| {
        let layers = layers::read(&frame).expect("a frame of a good length");
        assert_eq!(layers.transport.map(|udp| udp.dport), Some(PORT));
        layers.someip.map(|someip| someip.messages().collect::<Vec<Message>>())
    });
    assert_eq!(four, six);
    four
}

fn absent(messages: &[Vec<u8>]) -> bool {
    cut(&messages.concat()).is_none()
}

// ---- "the SOME/IP layer is present exactly when the UDP payload cuts, with nothing left over, into one or more whole messages"

#[test]
fn one_message_may_fill_the_payload() {
    for payload in [0, 1, 2, 15, 16, 17, 200] {
        assert_eq!(cut(&message(payload)), Some(vec![ASKED]), "{payload}");
    }
    assert_eq!(cut(&frame_a()[MESSAGES..]), Some(vec![ASKED]));
}

#[test]
fn several_messages_may_fill_it() {
    let other = Message { service: 0x1002, ..ASKED };
    assert_eq!(cut(&[message(0), message(0)].concat()), Some(vec![ASKED; 2]));
    assert_eq!(cut(&[message(3), turned(message(0), 1)].concat()), Some(vec![ASKED, other]));
    assert_eq!(cut(&[turned(message(0), 1), message(100), message(1)].concat()), Some(vec![other, ASKED, ASKED]));
    for count in 1..=91 {
        assert_eq!(cut(&message(0).repeat(count)), Some(vec![ASKED; count]), "{count}");
    }
}

#[test]
fn no_frame_carries_more_than_92() {
    let most = over_ipv4(&message(0).repeat(92));
    assert_eq!((most.len(), most.len() - MESSAGES), (1_514, 1_472));
    let read = layers::read(&most).expect("layers").someip.expect("SOME/IP");
    assert_eq!(read.messages().collect::<Vec<_>>(), [ASKED; 92]);
    assert!(layers::read(&over_ipv4(&message(0).repeat(93))).is_err());
    let most6 = over_ipv6(&message(0).repeat(91));
    assert_eq!(
        (most6.len(), layers::read(&most6).expect("layers").someip.map(|s| s.messages().count())),
        (1_518, Some(91))
    );
}

#[test]
fn an_empty_payload_cuts_into_no_message() {
    assert_eq!(cut(&[]), None);
}

#[test]
fn nothing_may_be_left_over() {
    for before in 0..=3 {
        for left in 1..=15 {
            let whole = message(5).repeat(before);
            for bytes in [vec![0; left], vec![0xff; left], message(0)[..left].to_vec()] {
                assert!(absent(&[whole.clone(), bytes]), "{left} behind {before}");
            }
        }
    }
    for left in 16..=40 {
        for bytes in [vec![0; left], vec![0xff; left], with_length(message(left - 16), 8 + left as u32)] {
            assert!(absent(&[message(0), bytes]), "{left}");
        }
    }
    // 01 took a message whose Length says less than there is.
    for less in 8..30 {
        assert!(absent(&[with_length(message(22), less)]), "{less}");
    }
}

#[test]
fn each_length_is_at_least_8() {
    for length in 0..8 {
        let low = with_length(message(0), length);
        let cuts = low[..8 + length as usize].to_vec();
        for bytes in [low, cuts] {
            assert_eq!(cut(&bytes), None, "{length}, alone");
            assert!(absent(&[bytes.clone(), message(0), message(4)]), "{length}, the first");
            assert!(absent(&[message(0), bytes.clone(), message(4)]), "{length}, the second");
            assert!(absent(&[message(0), message(4), bytes]), "{length}, the last");
        }
    }
}

#[test]
fn each_message_is_whole() {
    let huge = [0x0001_0008, 0x0100_0008, 0x7fff_ffff, 0x8000_0008, 0xffff_0008, 0xffff_fff0, 0xffff_fff7];
    // These pass 2^32 where 8 is added, or where the bytes before the message are too.
    let wraps = [0xffff_fff8, 0xffff_fff9, 0xffff_ffff, 0xffff_ffe8, 0xffff_ffd4];
    for length in [9, 16, 24, 1_000].into_iter().chain(huge).chain(wraps) {
        assert!(absent(&[with_length(message(0), length)]), "{length:#x}, alone");
        assert!(absent(&[message(0), with_length(message(0), length)]), "{length:#x}, the last of two");
        assert!(absent(&[message(0), message(4), with_length(message(0), length)]), "{length:#x}, the last of three");
    }
    for length in [37, 100].into_iter().chain(huge).chain(wraps) {
        let large = with_length(message(0), length);
        assert!(absent(&[large.clone(), message(0), message(0)[..12].to_vec()]), "{length:#x}, the first");
        assert!(absent(&[large.clone(), message(4)]), "{length:#x}, the first of two");
        assert!(absent(&[message(0), large, message(4)]), "{length:#x}, the second of three");
    }
    // One that takes in the next is whole, and what lies in it is its payload.
    assert_eq!(cut(&[with_length(message(0), 8 + 16), turned(message(0), 1)].concat()), Some(vec![ASKED]));
}

#[test]
fn what_lies_beyond_the_packet_is_no_part_of_it() {
    let bundle = [message(0), message(4)].concat();
    for make in [over_ipv4, over_ipv6] {
        let messages = |payload: &[u8], padding: &[u8]| {
            let frame = [make(payload), padding.to_vec()].concat();
            layers::read(&frame).expect("layers").someip.map(|someip| someip.messages().collect::<Vec<_>>())
        };
        for padding in [vec![0], vec![0; 20], turned(message(0), 1)] {
            assert_eq!(messages(&bundle, &padding), Some(vec![ASKED; 2]));
        }
        // What the last one lacks lies behind the packet.
        for lacking in 1..=20 {
            let (within, beyond) = bundle.split_at(bundle.len() - lacking);
            assert_eq!(messages(within, beyond), (lacking == 20).then_some(vec![ASKED]), "{lacking}");
        }
    }
}

#[test]
fn only_a_udp_payload_cuts() {
    // The same bytes as a segment whose header has 20 bytes.
    let mut tcp = over_ipv4(&[vec![0; 12], message(0), message(0)].concat());
    (tcp[23], tcp[UDP + 12]) = (6, 0x50);
    sum(&mut tcp);
    let read = layers::read(&tcp).expect("layers");
    assert_eq!((read.transport.map(|tcp| tcp.kind), read.someip), (Some(Kind::Tcp), None));
}

// ---- "SOME/IP settings agree exactly when they agree for every message"

/// A rule for the port with these settings of SOME/IP, which agree with `message`.
fn rule(id: u16, settings: u32) -> Rule {
    Rule {
        id,
        set: set::KIND | set::DEST_PORTS | settings,
        kind: Kind::Udp,
        dports: Range { low: PORT, high: PORT },
        service: ASKED.service,
        method: ASKED.method,
        version: ASKED.version,
        message: ASKED.message,
        code: ASKED.code,
        ..read_table(&[0; TABLE_IMAGE]).rules[0]
    }
}

/// A table of these rules, all active.
fn table(default: Action, rules: &[Rule]) -> Table {
    let mut table = read_table(&[0; TABLE_IMAGE]);
    table.rules[..rules.len()].copy_from_slice(rules);
    (table.rule_count, table.state_count) = (rules.len() as u8, 1);
    table.states[0] = State { default, marks: (1 << rules.len()) - 1 };
    assert_eq!(table.check(), Ok(()));
    table
}

/// Verdict, rule id and event.
fn judged(table: &Table, frame: &[u8]) -> (Verdict, u16, Vec<u8>) {
    let mut space = [170; 256];
    let answer = judge(table, &mut Records::empty(0), 0, frame, 0, &mut space).expect("judged");
    assert!(space[answer.length..].iter().all(|byte| *byte == 170));
    (answer.verdict, answer.rule, space[..answer.length].to_vec())
}

/// Blocked by the default, with the event of SOME/IP that names this rule and shows this header.
fn mismatch(rule: u16, header: &[u8]) -> (Verdict, u16, Vec<u8>) {
    let mut event = [56u16.to_be_bytes(), rule.to_be_bytes()].concat();
    event.extend(&header[..16]);
    (Verdict::BlockedByDefault, NO_RULE, event)
}

#[test]
fn a_rule_passes_what_agrees_in_every_message() {
    let all = table(Action::Block, &[rule(7, set::SOMEIP)]);
    for count in [1, 2, 3, 91] {
        let bundle = message(0).repeat(count);
        assert_eq!(judged(&all, &over_ipv4(&bundle)), (Verdict::Passed, 7, vec![]), "{count}");
        assert_eq!(judged(&all, &over_ipv6(&bundle)), (Verdict::Passed, 7, vec![]), "{count}");
    }
    let mut most = message(0).repeat(92);
    assert_eq!(judged(&all, &over_ipv4(&most)), (Verdict::Passed, 7, vec![]));
    most[91 * 16 + 15] = 1;
    assert_eq!(judged(&all, &over_ipv4(&most)), mismatch(7, &message(0)), "the last of 92");
}

/// Each choice of settings, with one message of four that differs in one of the five, be it the first, the last or between.
#[test]
fn one_message_that_disagrees_is_enough() {
    for choice in 0..32 {
        let settings = choice * set::SERVICE;
        let table = table(Action::Block, &[rule(7, settings)]);
        for at in 0..4 {
            for (setting, byte) in SETTINGS {
                let mut messages = [message(0), message(9), message(1), message(0)];
                messages[at] = turned(messages[at].clone(), byte);
                let asked = settings & setting != 0;
                let expected = if asked { mismatch(7, &messages[0]) } else { (Verdict::Passed, 7, vec![]) };
                for make in [over_ipv4, over_ipv6] {
                    assert_eq!(judged(&table, &make(&messages.concat())), expected, "{settings:#x}, {at}, {byte}");
                }
            }
        }
    }
}

#[test]
fn none_that_agrees_is_not_enough_either() {
    let table = table(Action::Block, &[rule(7, set::SOMEIP)]);
    // Each setting agrees in some message, and no message in every setting.
    let messages: Vec<Vec<u8>> = SETTINGS.iter().map(|(_, byte)| turned(message(0), *byte)).collect();
    assert_eq!(judged(&table, &over_ipv4(&messages.concat())), mismatch(7, &messages[0]));
}

/// The car's bundle: 01 read the first message only and let it pass.
#[test]
fn the_second_message_counts_under_table_t() {
    let (good, other) = (message(14), turned(message(14), 14));
    assert_eq!(judged(&table_t(), &over_ipv4(&[good.clone(), good.clone()].concat())), (Verdict::Passed, 10, vec![]));
    assert_eq!(judged(&table_t(), &over_ipv4(&[good.clone(), other.clone()].concat())), mismatch(10, &good));
    assert_eq!(judged(&table_t(), &over_ipv4(&[other.clone(), good].concat())), mismatch(10, &other));
}

/// A rule that blocks does so where every message agrees with it, so a bundle in which some do is left to the default.
#[test]
fn a_block_rule_asks_every_message_too() {
    let blocks = Rule { action: Action::Block, service: 0x1002, ..rule(8, set::SERVICE) };
    let rules = [rule(7, set::SERVICE), blocks];
    let (wanted, unwanted) = (message(0), turned(message(0), 1));
    for default in [Action::Block, Action::Allow] {
        let table = table(default, &rules);
        assert_eq!(judged(&table, &over_ipv4(&unwanted.repeat(3))), (Verdict::Blocked, 8, vec![]));
        assert_eq!(judged(&table, &over_ipv4(&wanted.repeat(3))), (Verdict::Passed, 7, vec![]));
    }
    let both = over_ipv4(&[wanted.clone(), unwanted].concat());
    assert_eq!(judged(&table(Action::Block, &rules), &both), mismatch(7, &wanted));
    assert_eq!(judged(&table(Action::Allow, &rules), &both), (Verdict::PassedByDefault, NO_RULE, vec![]));
}

#[test]
fn a_rule_that_asks_for_nothing_matches_whether_or_not_it_cuts() {
    let table = table(Action::Block, &[rule(7, 0)]);
    let (good, other) = (message(0), turned(message(0), 1));
    let payloads =
        [good.clone(), [good.clone(), other].concat(), [good.clone(), vec![0]].concat(), vec![], vec![0; 15]];
    for payload in payloads.into_iter().chain([with_length(good, 7)]) {
        assert_eq!(judged(&table, &over_ipv4(&payload)), (Verdict::Passed, 7, vec![]));
        assert_eq!(judged(&table, &over_ipv6(&payload)), (Verdict::Passed, 7, vec![]));
    }
}

#[test]
fn a_bucket_counts_the_datagram() {
    let table = table(Action::Block, &[Rule { size: 1, refill: 0, ..rule(7, set::SERVICE | set::RATE) }]);
    let (mut records, frame) = (Records::empty(0), over_ipv4(&message(0).repeat(50)));
    for (verdict, level) in [(Verdict::Passed, 1_000), (Verdict::OverRate, 2_000)] {
        let answer = judge(&table, &mut records, 0, &frame, 0, &mut [0; 256]).expect("judged");
        assert_eq!((answer.verdict, records.levels[0]), (verdict, [level, 0]));
    }
}

// ---- "Events show the first"

#[test]
fn the_event_shows_zeros_where_the_layer_is_absent() {
    let good = message(0);
    let left_over = [good.clone(), vec![0]].concat();
    let low = [good.clone(), with_length(good.clone(), 7)].concat();
    let large = [good.clone(), with_length(good.clone(), 9)].concat();
    for (setting, _) in SETTINGS {
        let table = table(Action::Block, &[rule(7, setting)]);
        for payload in [&left_over, &low, &large, &vec![], &good[..15].to_vec()] {
            assert_eq!(judged(&table, &over_ipv4(payload)), mismatch(7, &[0; 16]));
            assert_eq!(judged(&table, &over_ipv6(payload)), mismatch(7, &[0; 16]));
        }
    }
}

#[test]
fn the_event_shows_the_first_whichever_disagrees() {
    let table = table(Action::Block, &[rule(7, set::CODE)]);
    let messages: Vec<Vec<u8>> = (0..3).map(|at| turned(message(at), at)).collect();
    for at in 0..3 {
        let mut messages = messages.clone();
        messages[at][15] = 9;
        assert_eq!(judged(&table, &over_ipv4(&messages.concat())), mismatch(7, &messages[0]), "{at}");
    }
}

// ---- the case stream

#[test]
fn a_line_of_layers_shows_every_message() {
    let line = |payload: &[u8]| {
        let frame = over_ipv4(payload);
        let mut printed = Vec::new();
        let stream = [&b"L"[..], &(frame.len() as u16).to_be_bytes(), &frame].concat();
        run(&mut stream.as_slice(), &mut printed).expect("printed");
        String::from_utf8(printed).expect("text").rsplit(' ').next().expect("the last word").to_string()
    };
    assert_eq!(line(&message(3)), "4096,273,1,128,0\n");
    assert_eq!(line(&[message(3), turned(message(0), 1)].concat()), "4096,273,1,128,0;4098,273,1,128,0\n");
    assert_eq!(line(&message(0).repeat(3)), "4096,273,1,128,0;4096,273,1,128,0;4096,273,1,128,0\n");
    assert_eq!(line(&[message(3), vec![0]].concat()), "-\n");
    assert_eq!(line(&[]), "-\n");
}
