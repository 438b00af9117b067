//! Tests of 02's request 2/12: the IPv6 header and its chain, the settings, the events, and conversations of either kind.

use crate::answer::{Refusal, Verdict, NO_RULE};
use crate::image::{read_records, write_records, TABLE_IMAGE};
use crate::judge::judge;
use crate::layers::{self, Addresses, Ip, Kind, Layers, ACK, SYN};
use crate::random::Random;
use crate::records::{Conversation, Quadruple, Records, OPENING, RUNNING};
use crate::stream::run;
use crate::table::{set, Action, Prefix, Prefix6, Range, Rule, State, Table};
use crate::table_t::{arp, frame_a, table_t};

const SOURCE: u128 = 0x2001_0db8_0000_0001_8000_0000_0000_0001;
const DESTINATION: u128 = 0xfe80_0000_0000_0000_0000_0000_0000_0002;
/// Where the IPv6 header starts, and where what follows it does.
const HEADER: usize = 14;
const PAYLOAD: usize = 54;

/// The extension headers of a chain: number and length byte, in turn over the numbers and over two lengths.
fn extensions(count: usize) -> Vec<(u8, u8)> {
    (0..count).map(|at| ([0, 43, 60][at % 3], (at % 2) as u8)).collect()
}

/// An IPv6 frame with these extension headers, then this number and these bytes.
fn frame(chain: &[(u8, u8)], number: u8, upper: &[u8]) -> Vec<u8> {
    let mut payload = Vec::new();
    for (at, (_, length)) in chain.iter().enumerate() {
        payload.extend([chain.get(at + 1).map_or(number, |(next, _)| *next), *length]);
        payload.resize(payload.len() + 6 + 8 * usize::from(*length), 0xee);
    }
    payload.extend(upper);
    let mut frame = vec![2, 0, 0, 0, 0, 1, 2, 0, 0, 0, 0, 2, 0x86, 0xdd, 0x6a, 1, 2, 3];
    frame.extend((payload.len() as u16).to_be_bytes());
    frame.extend([chain.first().map_or(number, |(first, _)| *first), 64]);
    frame.extend(SOURCE.to_be_bytes());
    frame.extend(DESTINATION.to_be_bytes());
    frame.extend(payload);
    frame
}

fn set_length(frame: &mut [u8], length: usize) {
    frame[HEADER + 4..HEADER + 6].copy_from_slice(&(length as u16).to_be_bytes());
}

/// A datagram to port 30501 with the message of frame A.
fn udp() -> Vec<u8> {
    frame_a()[34..].to_vec()
}

fn tcp(flags: u8) -> Vec<u8> {
    let mut segment = [443u16.to_be_bytes(), 5_000u16.to_be_bytes()].concat();
    segment.extend([0, 0, 0, 1, 0, 0, 0, 2, 0x50, flags, 1, 0, 0, 0, 0, 0]);
    segment
}

fn read(frame: &[u8]) -> Layers<'_> {
    layers::read(frame).expect("a frame of a good length")
}

/// The number after the chain, of a frame that shows IPv6; none where the chain fails, and then there is no transport either.
fn number(frame: &[u8]) -> Option<u8> {
    let layers = read(frame);
    let Some(Ip::V6(ip)) = layers.ip else { panic!("no IPv6") };
    assert_eq!((ip.source, ip.destination), (SOURCE, DESTINATION));
    assert!(ip.payload.is_some() || layers.transport.is_none());
    ip.payload.map(|payload| payload.protocol)
}

fn kind(frame: &[u8]) -> Option<Kind> {
    read(frame).transport.map(|transport| transport.kind)
}

// ---- the header

#[test]
fn the_header_is_read() {
    let frame = frame(&[], 17, &udp());
    let plain = read(&frame);
    let Some(Ip::V6(ip)) = plain.ip else { panic!("no IPv6") };
    assert_eq!((ip.source, ip.destination), (SOURCE, DESTINATION));
    let udp = plain.transport.expect("UDP");
    assert_eq!((udp.kind, udp.sport, udp.dport, udp.start), (Kind::Udp, 30_491, 30_501, PAYLOAD));
    assert_eq!(plain.someip.expect("SOME/IP").messages().next().map(|message| message.service), Some(0x1000));
}

#[test]
fn it_needs_its_ether_type_40_bytes_and_its_version() {
    let whole = frame(&[], 59, &[]);
    assert_eq!(whole.len(), HEADER + 40);
    assert_eq!(number(&whole), Some(59));
    assert_eq!(read(&whole[..HEADER + 39]).ip, None);
    for version in (0..16).filter(|version| *version != 6) {
        let mut other = whole.clone();
        other[HEADER] = version << 4 | 6;
        assert_eq!(read(&other).ip, None);
    }
    let mut under_ipv4 = whole.clone();
    under_ipv4[12..14].copy_from_slice(&[0x08, 0x00]);
    assert_eq!(read(&under_ipv4).ip, None);
    let mut ipv4 = frame_a();
    ipv4[12..14].copy_from_slice(&[0x86, 0xdd]);
    assert_eq!(read(&ipv4).ip, None);
}

#[test]
fn it_may_stand_behind_a_tag() {
    let mut tagged = frame(&extensions(2), 17, &udp());
    tagged.splice(12..12, [0x81, 0x00, 0x20, 0x05]);
    assert_eq!(number(&tagged), Some(17));
    assert_eq!(kind(&tagged), Some(Kind::Udp));
}

#[test]
fn the_payload_length_must_fit() {
    for (next, upper) in [(17, udp()), (6, tcp(ACK))] {
        let whole = frame(&extensions(1), next, &upper);
        let length = 8 + upper.len();
        let with = |length: usize| {
            let mut other = whole.clone();
            set_length(&mut other, length);
            other
        };
        assert_eq!(read(&with(length + 1)).ip, None, "one more than the rest");
        assert_eq!(read(&with(65_535)).ip, None);
        assert!(kind(&with(length)).is_some());
        assert_eq!(number(&with(length - 1)), Some(next), "one less: a byte of padding");
        assert_eq!(kind(&with(length - 1)), None, "the transport lacks a byte");
    }
}

#[test]
fn what_lies_beyond_the_payload_is_padding() {
    for (next, upper) in [(17, udp()), (6, tcp(ACK))] {
        let plain = frame(&extensions(3), next, &upper);
        let mut padded = plain.clone();
        padded.extend([0; 6]);
        assert_eq!(read(&padded), read(&plain));
        assert!(kind(&padded).is_some());
    }
    // No chain is followed into the padding, and no transport read out of it.
    let mut cut = frame(&[(60, 0)], 17, &udp());
    set_length(&mut cut, 7);
    assert_eq!(number(&cut), None);
    set_length(&mut cut, 8);
    assert_eq!((number(&cut), kind(&cut)), (Some(17), None));
}

#[test]
fn a_payload_length_of_0_is_taken_as_it_stands() {
    let mut frame = frame(&[], 17, &udp());
    set_length(&mut frame, 0);
    assert_eq!((number(&frame), kind(&frame)), (Some(17), None));
    for (next, after) in [(0, None), (43, None), (60, None), (44, None), (6, Some(6)), (255, Some(255))] {
        frame[HEADER + 6] = next;
        assert_eq!(number(&frame), after);
    }
}

// ---- the chain

#[test]
fn at_most_eight_headers_are_followed() {
    for count in 0..=10 {
        for (next, upper, shown) in [(6, tcp(SYN), Kind::Tcp), (17, udp(), Kind::Udp)] {
            let frame = frame(&extensions(count), next, &upper);
            let followed = count <= 8;
            assert_eq!(number(&frame), followed.then_some(next), "{count} headers");
            assert_eq!(kind(&frame), followed.then_some(shown), "{count} headers");
            let start =
                PAYLOAD + extensions(count).iter().map(|(_, length)| 8 + 8 * usize::from(*length)).sum::<usize>();
            assert_eq!(read(&frame).transport.map(|transport| transport.start), followed.then_some(start));
        }
    }
}

#[test]
fn each_of_the_three_numbers_and_no_other_is_a_header_of_the_chain() {
    for next in 0..=255 {
        let behind = frame(&[(next, 0)], 17, &udp());
        let expected = match next {
            0 | 43 | 60 => Some(17),
            44 => None,
            other => Some(other),
        };
        assert_eq!(number(&behind), expected, "{next}");
    }
    assert_eq!(number(&frame(&[(43, 0), (0, 0), (60, 0), (0, 0), (60, 0)], 58, &[])), Some(58));
}

#[test]
fn a_header_that_is_cut_fails_the_chain() {
    for count in 1..=8 {
        let chain = extensions(count);
        let whole = frame(&chain, 59, &[]);
        assert_eq!(number(&whole), Some(59), "the payload ends with the chain");
        let last = 8 + 8 * usize::from(chain[count - 1].1);
        for missing in 1..=last {
            let mut cut = whole[..whole.len() - missing].to_vec();
            let left = cut.len() - PAYLOAD;
            set_length(&mut cut, left);
            assert_eq!(number(&cut), None, "{count} headers, {missing} bytes missing");
        }
    }
}

#[test]
fn a_header_has_eight_bytes_and_eight_for_each_of_its_length_byte() {
    for length in [0, 1, 2, 100, 170] {
        assert_eq!(number(&frame(&[(60, length)], 17, &udp())), Some(17), "{length}");
    }
    let mut frame = frame(&[(60, 1)], 59, &[]);
    frame[PAYLOAD + 1] = 2;
    assert_eq!(number(&frame), None, "one unit too long");
    frame[PAYLOAD + 1] = 255;
    assert_eq!(number(&frame), None);
    frame[PAYLOAD + 1] = 0;
    assert_eq!(number(&frame), Some(59));
}

#[test]
fn a_fragment_header_fails_the_chain_wherever_it_stands() {
    for before in 0..=9 {
        let mut chain = extensions(before);
        chain.push((44, 0));
        assert_eq!(number(&frame(&chain, 17, &udp())), None, "after {before}");
        chain.push((60, 0));
        assert_eq!(number(&frame(&chain, 17, &udp())), None, "after {before}, and one behind it");
    }
    assert_eq!(number(&frame(&[], 44, &[])), None, "the number is enough");
}

#[test]
fn transport_lengths_are_measured_after_the_chain() {
    for count in [0, 1, 8] {
        let chain = extensions(count);
        let bytes: usize = chain.iter().map(|(_, length)| 8 + 8 * usize::from(*length)).sum();
        for (length, agrees) in [(38, true), (37, false), (39, false), (38 + bytes as u16, count == 0)] {
            let mut datagram = udp();
            datagram[4..6].copy_from_slice(&length.to_be_bytes());
            assert_eq!(kind(&frame(&chain, 17, &datagram)).is_some(), agrees, "{count} headers, length {length}");
        }
        assert_eq!(kind(&frame(&chain, 17, &udp()[..7])), None);
        assert_eq!(kind(&frame(&chain, 6, &tcp(ACK)[..19])), None);
        let mut segment = tcp(ACK);
        segment[12] = 0x60;
        segment.resize(23, 0);
        assert_eq!(kind(&frame(&chain, 6, &segment)), None, "the data offset goes one byte beyond");
        segment.push(0);
        assert_eq!(read(&frame(&chain, 6, &segment)).transport.map(|tcp| tcp.header), Some(24));
    }
}

// ---- rules

/// A table of these rules, all active, and a default that blocks.
fn table(rules: &[Rule]) -> Table {
    let mut table = table_t();
    for (place, rule) in rules.iter().enumerate() {
        table.rules[place] = Rule { id: 1 + place as u16, ..*rule };
    }
    table.rule_count = rules.len() as u8;
    table.states[0] = State { default: Action::Block, marks: (1 << rules.len()) - 1 };
    assert_eq!(table.check(), Ok(()));
    table
}

/// An allow rule with these settings, which agree with `frame` where they are of IPv6.
fn rule(settings: u32) -> Rule {
    let blank = crate::image::read_table(&[0; TABLE_IMAGE]).rules[0];
    Rule {
        set: settings,
        source6: Prefix6 { address: SOURCE, length: 64 },
        destination6: Prefix6 { address: DESTINATION, length: 128 },
        protocol6: 17,
        ..blank
    }
}

/// Verdict, rule id and event.
fn judged(table: &Table, frame: &[u8]) -> (Verdict, u16, Vec<u8>) {
    let mut space = [170; 256];
    let answer = judge(table, &mut Records::empty(0), 0, frame, 0, &mut space).expect("judged");
    assert!(space[answer.length..].iter().all(|byte| *byte == 170));
    (answer.verdict, answer.rule, space[..answer.length].to_vec())
}

fn passes(rule: Rule, frame: &[u8]) -> bool {
    judged(&table(&[rule]), frame).0 == Verdict::Passed
}

#[test]
fn a_prefix_compares_its_leading_bits_alone() {
    for length in 0..=128 {
        let prefix = Prefix6 { address: SOURCE, length };
        assert!(prefix.holds(SOURCE));
        for bit in 0..128 {
            let other = SOURCE ^ 1 << (127 - bit);
            assert_eq!(prefix.holds(other), bit >= length, "length {length}, bit {bit}");
        }
    }
}

#[test]
fn prefixes_of_a_rule() {
    for length in [0, 1, 63, 64, 65, 127, 128] {
        let by_source = |address| Rule { source6: Prefix6 { address, length }, ..rule(set::SOURCE6) };
        let by_destination = |address| Rule { destination6: Prefix6 { address, length }, ..rule(set::DESTINATION6) };
        let frame = frame(&[], 59, &[]);
        assert!(passes(by_source(SOURCE), &frame) && passes(by_destination(DESTINATION), &frame));
        if length > 0 {
            let last = 1 << (128 - length);
            assert!(!passes(by_source(SOURCE ^ last), &frame), "{length}");
            assert!(!passes(by_destination(DESTINATION ^ last), &frame), "{length}");
        }
        if length < 128 {
            let next = 1 << (127 - length);
            assert!(passes(by_source(SOURCE ^ next), &frame), "{length}");
            assert!(passes(by_destination(DESTINATION ^ next), &frame), "{length}");
        }
    }
}

#[test]
fn the_protocol_is_the_number_after_the_chain() {
    let asks = |protocol6| Rule { protocol6, ..rule(set::PROTOCOL6) };
    let behind = frame(&[(0, 0), (43, 1)], 17, &udp());
    assert!(passes(asks(17), &behind));
    for number in [0, 43, 60, 44, 6] {
        assert!(!passes(asks(number), &behind), "{number}");
    }
    assert!(passes(asks(58), &frame(&[], 58, &[1, 2, 3])));
    // Where the chain fails nothing agrees, be it what the header says, what fails it or what lies behind.
    let nine = frame(&extensions(9), 17, &udp());
    let fragment = frame(&[(44, 0)], 17, &udp());
    for number in 0..=255 {
        assert!(!passes(asks(number), &nine) && !passes(asks(number), &fragment), "{number}");
    }
}

#[test]
fn addresses_agree_though_the_chain_fails() {
    let addresses = rule(set::SOURCE6 | set::DESTINATION6);
    let mut cut = frame(&[(60, 0)], 17, &udp());
    cut[PAYLOAD + 1] = 9;
    for fails in [frame(&extensions(9), 17, &udp()), frame(&[(44, 0)], 17, &udp()), cut] {
        assert!(passes(rule(set::SOURCE6), &fails) && passes(addresses, &fails));
        assert!(!passes(rule(set::IPV6), &fails));
        assert!(!passes(Rule { kind: Kind::Udp, ..rule(set::SOURCE6 | set::KIND) }, &fails), "no transport");
    }
}

#[test]
fn settings_of_one_kind_never_agree_with_a_frame_of_the_other() {
    let (four, six) = (frame_a(), frame(&[], 17, &udp()));
    let any4 = Rule { source: Prefix { address: 0, length: 0 }, ..rule(set::SOURCE) };
    let any6 = Rule { source6: Prefix6 { address: 0, length: 0 }, ..rule(set::SOURCE6) };
    assert!(passes(any4, &four) && !passes(any4, &six));
    assert!(passes(any6, &six) && !passes(any6, &four));
    let udp4 = Rule { protocol: 17, ..rule(set::PROTOCOL) };
    let udp6 = rule(set::PROTOCOL6);
    assert!(passes(udp4, &four) && !passes(udp4, &six));
    assert!(passes(udp6, &six) && !passes(udp6, &four));
    let neither =
        Rule { kind: Kind::Udp, dports: Range { low: 30_501, high: 30_501 }, ..rule(set::KIND | set::DEST_PORTS) };
    assert!(passes(neither, &four) && passes(neither, &six));
    let message = Rule { service: 0x1000, message: 0x80, ..rule(set::SERVICE | set::MESSAGE) };
    assert!(passes(message, &four) && passes(message, &six));
}

// ---- events

#[test]
fn the_ip_event_goes_by_the_settings_of_the_rule() {
    let by_four = table(&[Rule { protocol: 6, ..rule(set::PROTOCOL) }]);
    let by_six = table(&[Rule { protocol6: 6, ..rule(set::PROTOCOL6) }]);
    let (four, six) = (frame_a(), frame(&extensions(2), 17, &udp()));
    let event = |number: u16, header: &[u8], length: usize| {
        let mut event = [number.to_be_bytes(), 1u16.to_be_bytes()].concat();
        event.extend(header);
        event.resize(4 + length, 0);
        (Verdict::BlockedByDefault, NO_RULE, event)
    };
    assert_eq!(judged(&by_four, &four), event(51, &four[14..34], 24));
    assert_eq!(judged(&by_four, &six), event(51, &[], 24));
    assert_eq!(judged(&by_four, &arp()), event(51, &[], 24));
    assert_eq!(judged(&by_six, &six), event(52, &six[HEADER..PAYLOAD], 40));
    assert_eq!(judged(&by_six, &four), event(52, &[], 40));
    assert_eq!(judged(&by_six, &arp()), event(52, &[], 40));
    let fails = frame(&extensions(9), 6, &tcp(SYN));
    assert_eq!(judged(&by_six, &fails), event(52, &fails[HEADER..PAYLOAD], 40), "the layer is still there");
    let mut absent = six.clone();
    set_length(&mut absent, six.len());
    assert_eq!(judged(&by_six, &absent), event(52, &[], 40));
}

// ---- conversations

/// Tracked, whatever the kind, with four places.
fn tracked() -> Table {
    table(&[Rule { kind: Kind::Tcp, places: 4, idle: 1_000, numbers: [4, 4], ..rule(set::KIND | set::TRACKING) }])
}

fn segment6(source: u128, destination: u128, flags: u8) -> Vec<u8> {
    let mut frame = frame(&[], 6, &tcp(flags));
    frame[HEADER + 8..HEADER + 24].copy_from_slice(&source.to_be_bytes());
    frame[HEADER + 24..HEADER + 40].copy_from_slice(&destination.to_be_bytes());
    frame
}

/// The same segment over IPv4; its header has no options.
fn segment4(source: u32, destination: u32, flags: u8) -> Vec<u8> {
    let mut frame = vec![2, 0, 0, 0, 0, 1, 2, 0, 0, 0, 0, 2, 8, 0, 0x45, 0, 0, 40, 0, 1, 0, 0, 64, 6, 0, 0];
    frame.extend([source.to_be_bytes(), destination.to_be_bytes()].concat());
    let sum: u32 = frame[14..34].chunks(2).map(|w| u32::from(w[0]) << 8 | u32::from(w[1])).sum();
    let folded = (sum & 0xffff) + (sum >> 16);
    frame[24..26].copy_from_slice(&(!((folded & 0xffff) + (folded >> 16)) as u16).to_be_bytes());
    frame.extend(tcp(flags));
    frame
}

/// Opens the first, then sends a carry of the second.
fn first_then(first: &[u8], second: &[u8]) -> Verdict {
    let (table, mut records, mut space) = (tracked(), Records::empty(0), [0; 256]);
    let opened = judge(&table, &mut records, 0, first, 0, &mut space).expect("judged");
    assert_eq!((opened.verdict, records.held[0][0]), (Verdict::Passed, OPENING));
    judge(&table, &mut records, 0, second, 0, &mut space).expect("judged").verdict
}

#[test]
fn a_conversation_of_ipv6_opens_and_runs() {
    assert_eq!(first_then(&segment6(SOURCE, DESTINATION, SYN), &segment6(SOURCE, DESTINATION, ACK)), Verdict::Passed);
    assert_eq!(
        first_then(&segment6(SOURCE, DESTINATION, SYN), &segment6(DESTINATION, SOURCE, ACK)),
        Verdict::NoSuchConversation
    );
    // The chain is no part of the conversation.
    let mut behind = frame(&extensions(8), 6, &tcp(ACK));
    assert_eq!(first_then(&segment6(SOURCE, DESTINATION, SYN), &behind), Verdict::Passed);
    behind[HEADER + 39] ^= 1;
    assert_eq!(first_then(&segment6(SOURCE, DESTINATION, SYN), &behind), Verdict::NoSuchConversation);
}

#[test]
fn every_bit_of_an_address_counts() {
    let first = segment6(SOURCE, DESTINATION, SYN);
    for bit in 0..128 {
        let (source, destination) = (SOURCE ^ 1 << bit, DESTINATION ^ 1 << bit);
        assert_eq!(first_then(&first, &segment6(source, DESTINATION, ACK)), Verdict::NoSuchConversation, "{bit}");
        assert_eq!(first_then(&first, &segment6(SOURCE, destination, ACK)), Verdict::NoSuchConversation, "{bit}");
    }
}

#[test]
fn an_ipv4_address_never_equals_an_ipv6_one() {
    for (source, destination) in [(0, 0), (0x0a00_0009, 0x0a01_0001)] {
        let (six, six_ack) = [SYN, ACK].map(|flags| segment6(source.into(), destination.into(), flags)).into();
        let (four, four_ack) = [SYN, ACK].map(|flags| segment4(source, destination, flags)).into();
        assert_eq!(first_then(&six, &six_ack), Verdict::Passed);
        assert_eq!(first_then(&four, &four_ack), Verdict::Passed);
        assert_eq!(first_then(&six, &four_ack), Verdict::NoSuchConversation);
        assert_eq!(first_then(&four, &six_ack), Verdict::NoSuchConversation);
    }
}

/// Records in which the first places of the rule are held by these, all with the same ports.
fn holding(held: &[Addresses]) -> Records {
    let mut records = Records::empty(0);
    for (slot, addresses) in held.iter().enumerate() {
        let quadruple = Quadruple::new(*addresses, 443, 5_000);
        records.hold(0, slot, RUNNING, 0, Conversation { quadruple, age: 0 });
    }
    records
}

#[test]
fn a_quadruple_repeats_only_in_its_kind_and_all_its_bits() {
    let (four, six) = (Addresses::V4 { source: 7, destination: 8 }, Addresses::v6(7, 8));
    let check = |held: &[Addresses]| holding(held).check(&tracked());
    assert_eq!(check(&[four, six]), Ok(()));
    assert_eq!(check(&[Addresses::V4 { source: 0, destination: 0 }, Addresses::v6(0, 0)]), Ok(()));
    assert_eq!(check(&[four, six, four]), Err(Refusal::BadRecord));
    assert_eq!(check(&[six, four, six]), Err(Refusal::BadRecord));
    for bit in 0..128 {
        let (source, destination) = (Addresses::v6(7 ^ 1 << bit, 8), Addresses::v6(7, 8 ^ 1 << bit));
        assert_eq!(check(&[six, source, destination]), Ok(()), "{bit}");
        assert_eq!(check(&[source, six, destination, source]), Err(Refusal::BadRecord), "{bit}");
    }
}

// ---- the case stream

#[test]
fn an_image_tells_the_kind_and_leaves_the_other_kinds_bytes() {
    let records = holding(&[Addresses::v6(SOURCE, 8), Addresses::V4 { source: 7, destination: 8 }]);
    let mut image = write_records(&records, &mut Random::new(1));
    assert_eq!(read_records(&image), records);
    let places = [20 + 16, 20 + 16 + 64];
    assert_eq!((image[places[0] + 17] != 0, image[places[1] + 17]), (true, 0));
    assert_eq!(image[places[0] + 18..places[0] + 34], SOURCE.to_be_bytes());
    image[places[0] + 17] = 1;
    image[places[0] + 1..places[0] + 9].fill(0x55);
    image[places[1] + 18..places[1] + 50].fill(0x55);
    assert_eq!(read_records(&image), records);
}

#[test]
fn lines_of_layers_and_conversations() {
    let lines = |stream: &[u8]| {
        let mut printed = Vec::new();
        run(&mut &stream[..], &mut printed).expect("printed");
        String::from_utf8(printed).expect("text")
    };
    let layers = |frame: &[u8]| lines(&[&b"L"[..], &(frame.len() as u16).to_be_bytes(), frame].concat());
    let start =
        "L 020000000001 020000000002 - 34525 6,20010db8000000018000000000000001,fe800000000000000000000000000002,";
    assert_eq!(layers(&frame(&extensions(8), 17, &udp())), format!("{start}17 U,30491,30501 4096,273,1,128,0\n"));
    assert_eq!(layers(&frame(&extensions(9), 17, &udp())), format!("{start}- - -\n"));
    assert_eq!(layers(&frame(&[], 58, &[])), format!("{start}58 - -\n"));
    let records = holding(&[Addresses::v6(SOURCE, 8), Addresses::V4 { source: 7, destination: 8 }]);
    let printed = lines(&[&b"R"[..], &write_records(&records, &mut Random::new(1)), b"P"].concat());
    let six = "c 0 0 0 20010db8000000018000000000000001 00000000000000000000000000000008 443 5000 2 0\n";
    assert_eq!(printed, format!("P 0 0 0 0\np 0 0 0 0 0\n{six}c 0 1 0 7 8 443 5000 2 0\n.\n"));
}
