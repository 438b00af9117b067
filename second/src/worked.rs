//! The worked set of 01, M1 to M11, as tests, and 01's table of flags and states with the verdicts of 02.

use crate::answer::{Refusal, Verdict, NO_RULE};
use crate::judge::judge;
use crate::layers::{self, Addresses, ACK, SYN};
use crate::reach::{flag_sets, flags_name};
use crate::records::{fresh, Conversation, Quadruple, Records, CLOSING, FREE, OPENING, RUNNING};
use crate::table::Table;
use crate::table_t::{arp, frame_a, table_t, tcp};

/// A table, its records and an event space, judged frame by frame.
struct Bench {
    table: Table,
    records: Records,
    space: [u8; 256],
}

impl Bench {
    fn new(start: u64) -> Bench {
        let table = table_t();
        let records = fresh(&table, start).expect("table T is good");
        Bench { table, records, space: [170; 256] }
    }

    /// Verdict, rule id and the event.
    fn judge(&mut self, reading: u64, frame: &[u8]) -> (Verdict, u16, Vec<u8>) {
        self.space = [170; 256];
        let answer = judge(&self.table, &mut self.records, SOCKET, frame, reading, &mut self.space).expect("judged");
        assert!(self.space[answer.length..].iter().all(|byte| *byte == 170), "only the event is written");
        (answer.verdict, answer.rule, self.space[..answer.length].to_vec())
    }

    fn verdict(&mut self, reading: u64, frame: &[u8]) -> Verdict {
        self.judge(reading, frame).0
    }

    fn refusal(&mut self, frame: &[u8]) -> Refusal {
        let before = self.records.clone();
        let refused = judge(&self.table, &mut self.records, SOCKET, frame, 5, &mut self.space);
        assert_eq!(self.records, before);
        refused.expect_err("refused")
    }
}

const ADDRESSES: Addresses = Addresses::V4 { source: 0x0a00_0009, destination: 0x0a01_0001 };
/// "captures and M1 to M11 use socket 0" (02, 6/12).
const SOCKET: u8 = 0;

fn event(number: u16, rule: u16, array: &[u8], length: usize) -> Vec<u8> {
    let mut event = [number.to_be_bytes(), rule.to_be_bytes()].concat();
    event.extend(array);
    event.resize(4 + length, 0);
    event
}

#[test]
fn m1_frame_a_passes_by_rule_10() {
    assert_eq!(frame_a().len(), 72);
    assert_eq!(Bench::new(0).judge(0, &frame_a()), (Verdict::Passed, 10, vec![]));
}

#[test]
fn m2_padding_changes_nothing() {
    let mut padded = frame_a();
    padded.extend([0; 4]);
    let (mut plain, mut with) = (Bench::new(0), Bench::new(0));
    assert_eq!(plain.judge(0, &frame_a()), with.judge(0, &padded));
    assert_eq!(plain.records, with.records);
}

#[test]
fn m3_another_type_is_a_someip_mismatch() {
    let mut frame = frame_a();
    frame[56] = 0x81;
    let expected = event(56, 10, &frame[42..58], 16);
    assert_eq!(Bench::new(0).judge(0, &frame), (Verdict::BlockedByDefault, NO_RULE, expected));
}

#[test]
fn m4_a_cut_frame_shows_no_ipv4() {
    let mut frame = frame_a();
    frame.pop();
    assert_eq!(layers::read(&frame).unwrap().ip, None);
    let expected = event(54, 20, &[], 24);
    assert_eq!(Bench::new(0).judge(0, &frame), (Verdict::BlockedByDefault, NO_RULE, expected));
}

#[test]
fn m5_the_bucket_rises_and_drains() {
    let mut bench = Bench::new(0);
    let (mut verdicts, mut levels) = (vec![], vec![]);
    for reading in [0, 0, 0, 1_000, 2_000, 4_000] {
        verdicts.push(bench.verdict(reading, &arp()).number());
        levels.push(bench.records.levels[2][0]);
    }
    assert_eq!(verdicts, [0, 0, 3, 3, 3, 0]);
    assert_eq!(levels, [1_000, 2_000, 3_000, 3_000, 3_000, 2_000]);
    let mut over = Bench::new(0);
    over.records.levels[2][0] = 2_000;
    assert_eq!(over.judge(0, &arp()).2, event(64, 30, &arp()[6..12], 6));
}

#[test]
fn m6_a_conversation_opens_and_runs() {
    let mut bench = Bench::new(0);
    assert_eq!(bench.judge(0, &tcp(5_000, ACK)), (Verdict::NoSuchConversation, 20, event(63, 20, &[], 0)));
    assert_eq!(bench.judge(0, &tcp(5_000, SYN | ACK)), (Verdict::Passed, 20, vec![]));
    assert_eq!(bench.records.held[1][0], OPENING);
    assert_eq!(bench.judge(0, &tcp(5_000, ACK)), (Verdict::Passed, 20, vec![]));
    assert_eq!(bench.records.held[1][0], RUNNING);
}

/// The kinds, in the order of 01's table.
const KINDS: &[u8; 4] = b"OCER";
/// What each of the sixteen sets of flags is, FIN lowest, then SYN, RST and ACK; a point where it is wrong.
const FLAG_SETS: &[u8; 16] = b"..O.R...CEO.R...";
/// 01's table with 02's verdicts: how the conversation is held; for each kind the verdict, and how it is held after.
const BY_KIND: [(u8, [(u8, u8); 4]); 4] = [
    (FREE, [(0, OPENING), (41, FREE), (41, FREE), (41, FREE)]),
    (OPENING, [(0, OPENING), (0, RUNNING), (0, CLOSING), (0, FREE)]),
    (RUNNING, [(42, RUNNING), (0, RUNNING), (0, CLOSING), (0, FREE)]),
    (CLOSING, [(42, CLOSING), (0, CLOSING), (0, CLOSING), (0, FREE)]),
];

#[test]
fn each_set_of_flags_in_each_held_state() {
    let quadruple = Quadruple::new(ADDRESSES, 443, 5_000);
    for (held, cells) in BY_KIND {
        for (flags, letter) in flag_sets().zip(FLAG_SETS) {
            let mut bench = Bench::new(0);
            if held != FREE {
                bench.records.hold(1, 0, held, SOCKET, Conversation { quadruple, age: 7 });
            }
            // The other flags say nothing to tracking.
            let (verdict, rule, written) = bench.judge(0, &tcp(5_000, flags | 0xe8));
            let kind = KINDS.iter().position(|kind| kind == letter);
            let (number, after) = kind.map_or((40, held), |kind| cells[kind]);
            let name = flags_name(held, flags);
            assert_eq!((verdict.number(), rule), (number, 20), "{name}");
            assert_eq!(written, if number == 0 { vec![] } else { event(63, 20, &[], 0) }, "{name}");
            assert_eq!(bench.records.held[1][0], after, "{name}");
            let age = if number == 0 || held == FREE { 0 } else { 7 };
            assert_eq!(bench.records.conversations[1][0].age, age, "{name}");
            assert_eq!(bench.records.counts[1].blocked, u32::from(number != 0), "{name}");
        }
    }
}

#[test]
fn wrong_flags_come_before_full_places() {
    let mut bench = Bench::new(0);
    assert_eq!(bench.verdict(0, &tcp(1, SYN)), Verdict::Passed);
    assert_eq!(bench.verdict(0, &tcp(2, SYN)), Verdict::Passed);
    assert_eq!(bench.verdict(0, &tcp(3, 0)), Verdict::WrongFlags);
    assert_eq!(bench.verdict(0, &tcp(3, ACK)), Verdict::NoSuchConversation);
    assert_eq!(bench.verdict(0, &tcp(3, SYN)), Verdict::NoFreePlace);
}

#[test]
fn m7_places_fill_and_idle_out() {
    let mut bench = Bench::new(0);
    assert_eq!(bench.verdict(0, &tcp(1, SYN)), Verdict::Passed);
    assert_eq!(bench.verdict(0, &tcp(2, SYN)), Verdict::Passed);
    let third = tcp(3, SYN);
    assert_eq!(bench.judge(0, &third), (Verdict::NoFreePlace, 20, event(61, 20, &third[34..54], 24)));
    assert_eq!(bench.verdict(999, &third), Verdict::NoFreePlace);
    assert_eq!(bench.records.held[1][..2], [OPENING, OPENING]);
    assert_eq!(bench.verdict(1_000, &third), Verdict::Passed);
    assert_eq!(bench.records.held[1][..2], [OPENING, FREE]);
    let held = bench.records.conversations[1][0];
    assert_eq!(held.quadruple, Quadruple::new(ADDRESSES, 443, 3));
}

#[test]
fn m8_a_clock_that_goes_back() {
    let mut bench = Bench::new(1_000_000);
    assert_eq!(bench.verdict(1_000_000, &tcp(1, SYN)), Verdict::Passed);
    let ages = [0, 500].map(|reading| {
        bench.verdict(reading, &arp());
        bench.records.conversations[1][0].age
    });
    assert_eq!(ages, [0, 500]);
    assert_eq!((bench.records.held[1][0], bench.records.last), (OPENING, 500));
}

#[test]
fn m9_a_block_rule_and_a_udp_mismatch() {
    let mut low = frame_a();
    low[36..38].copy_from_slice(&68u16.to_be_bytes());
    assert_eq!(Bench::new(0).judge(0, &low), (Verdict::Blocked, 40, vec![]));
    let mut high = frame_a();
    high[36..38].copy_from_slice(&1_024u16.to_be_bytes());
    let expected = event(55, 10, &high[34..42], 8);
    assert_eq!(Bench::new(0).judge(0, &high), (Verdict::BlockedByDefault, NO_RULE, expected));
}

#[test]
fn m10_lengths() {
    let mut bench = Bench::new(0);
    let mut tagged = vec![0; 17];
    tagged[12..14].copy_from_slice(&[0x81, 0x00]);
    assert_eq!(bench.refusal(&[0; 13]), Refusal::ShortFrame);
    assert_eq!(bench.refusal(&tagged), Refusal::ShortFrame);
    assert_eq!(bench.refusal(&[0; 1_519]), Refusal::LongFrame);
    assert_eq!(bench.verdict(0, &[0; 1_518]), Verdict::BlockedByDefault);
}

#[test]
fn m11_two_orders_at_one_reading() {
    let (mut first, mut second) = (Bench::new(0), Bench::new(0));
    let one = [first.verdict(7, &frame_a()), first.verdict(7, &arp())];
    let other = [second.verdict(7, &arp()), second.verdict(7, &frame_a())];
    assert_eq!(one, [other[1], other[0]]);
    assert_eq!(first.records, second.records);
}
