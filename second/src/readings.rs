//! Tests of the case stream and of readings that the worked set leaves open.

use crate::faults::BadTable;
use crate::gen::generate;
use crate::layers::Addresses;
use crate::random::Random;
use crate::records::{Conversation, Records, CLOSING, FREE};
use crate::stream::run;
use crate::table::Prefix;
use crate::table_t::table_t;
use crate::world::draw_table;

fn lines(stream: &[u8]) -> String {
    let mut output = Vec::new();
    run(&mut &stream[..], &mut output).expect("a run in memory");
    String::from_utf8(output).expect("plain text")
}

#[test]
fn a_stream_that_ends_or_breaks() {
    assert_eq!(lines(b""), "");
    assert_eq!(lines(b"CZC"), "X 4 64 255\n?\n");
    assert_eq!(lines(b"T too short"), "?\n");
    assert_eq!(lines(b"L\x08\x01"), "?\n");
    assert_eq!(lines(b"J\0\0\0\0\0\0\0\0\x02\x01\0\0"), "?\n");
    assert_eq!(lines(b"V"), "?\n");
}

#[test]
fn the_first_table_is_bad_and_the_first_records_empty() {
    assert_eq!(lines(b"F\0\0\0\0\0\0\0\x05V\0P"), "X 4 64 255\nX 4 64 255\nP 0 0 0 0\n.\n");
    // The bad table comes before the short frame and the missing space.
    assert_eq!(lines(b"J\0\0\0\0\0\0\0\0\0\0\0\0"), "X 4 64 255\n");
}

#[test]
fn layers_alone() {
    assert_eq!(lines(b"L\0\x03abc"), "X 1 0 0\n");
    let tagged = b"L\0\x12\x01\x02\x03\x04\x05\x06\x07\x08\x09\x0a\x0b\x0c\x81\x00\xaf\xff\x81\x00";
    assert_eq!(lines(tagged), "L 010203040506 0708090a0b0c 5,4095 33024 - - -\n");
}

#[test]
fn a_prefix_compares_its_leading_bits() {
    let holds = |length, address| Prefix { address: 0x0a00_00ff, length }.holds(address);
    assert!(holds(0, 0xffff_ffff) && holds(8, 0x0aff_ffff) && holds(32, 0x0a00_00ff));
    assert!(!holds(1, 0x8a00_00ff) && !holds(8, 0x0b00_00ff) && !holds(32, 0x0a00_00fe));
}

#[test]
fn each_bad_table_is_refused_at_its_place_and_setting() {
    let mut random = Random::new(3);
    let all = BadTable::all();
    for bad in all.iter().cycle().take(5_000) {
        let mut table = draw_table(random.below(8), &mut random);
        assert!(table.check().is_ok());
        let refused = bad.spoil(&mut table, &mut random);
        assert_eq!(table.check(), Err(refused), "{}", bad.name());
    }
}

/// Seventeen settings and none: any two can be at fault together, save the halves of the rate and the protocol of IPv6 with what comes
/// before it in IPv6, since both kinds of IP are named at the first.
#[test]
fn every_two_settings_that_can_be_at_fault_are() {
    let two = |bad: &&BadTable| matches!(bad, BadTable::Settings(..));
    let names: Vec<String> = BadTable::all().iter().filter(two).map(|bad| bad.name()).collect();
    assert_eq!(names.len(), 18 * 17 / 2 - 3);
    for never in ["two-faults-17-18", "two-faults-21-23", "two-faults-22-23"] {
        assert!(!names.contains(&never.to_string()));
    }
}

#[test]
fn a_generated_stream_is_whole() {
    let mut stream = Vec::new();
    assert!(generate(1, 1_000, &mut stream).expect("written"), "something was not reached");
    let lines = lines(&stream);
    assert!(!lines.contains('?') && !lines.contains("dirty"));
    assert!(lines.ends_with(".\n"));
}

#[test]
fn what_no_fresh_record_has_is_a_bad_record() {
    let table = table_t();
    let bad = |spoil: fn(&mut Records)| {
        let mut records = Records::empty(0);
        spoil(&mut records);
        records.check(&table).is_err()
    };
    assert!(!bad(|_| {}));
    assert!(bad(|records| records.conversations[1][1].age = 1), "a free place of a rule that tracks");
    assert!(bad(|records| records.conversations[0][7].quadruple.ports = 1), "a place of a rule that does not");
    assert!(bad(|records| records.conversations[63][0].quadruple.ports = 1), "a place without a rule");
    let six = |records: &mut Records| records.conversations[1][0].quadruple.addresses = Addresses::v6(0, 0);
    assert!(bad(six), "a free place of another kind");
    assert!(bad(|records| records.held[1][0] = CLOSING + 1), "a state that there is not");
    assert!(bad(|records| records.sockets[1][1] = 1), "a free place with a socket");
    assert!(bad(|records| records.sockets[0][7] = 1) && bad(|records| records.sockets[63][0] = 1));
    let of = |socket: u8| {
        let mut records = Records::empty(0);
        records.hold(1, 0, CLOSING, socket, Conversation::default());
        records.hold(1, 1, FREE, 0, Conversation::default());
        records.check(&table).is_ok()
    };
    assert!(of(0) && of(1) && (2..=255).all(|socket| !of(socket)), "a socket that there is not");
}
