//! Tests of 02's request 6/12: a socket's setting, buckets, numbers and conversations, and what one socket's answers go by.

use crate::answer::{Answer, Refusal, Verdict, NO_RULE};
use crate::draft::Draft;
use crate::image::{read_records, read_table, write_records, write_table, RECORD_IMAGE, TABLE_IMAGE};
use crate::judge::judge;
use crate::layers::{Addresses, Kind, ACK, FIN, RST, SYN};
use crate::random::Random;
use crate::recording;
use crate::records::{fresh, switch, Conversation, Quadruple, Records, CLOSING, FREE, HIGHEST_LEVEL, OPENING, RUNNING};
use crate::stream::run;
use crate::table::{set, Action, Rule, State, Table, SOCKETS};
use crate::table_t::{arp, frame_a, table_t, tcp};
use crate::world::{aim, draw_frame, draw_table};

const SETTINGS_AT: usize = 3;
const ADDRESSES: Addresses = Addresses::V4 { source: 0x0a00_0009, destination: 0x0a01_0001 };

/// A table of these rules, whose ids rise from 1 on, all active, and a default that blocks.
fn table(rules: &[Rule]) -> Table {
    let mut table = read_table(&[0; TABLE_IMAGE]);
    for (place, rule) in rules.iter().enumerate() {
        table.rules[place] = Rule { id: 1 + place as u16, ..*rule };
    }
    (table.rule_count, table.state_count) = (rules.len() as u8, 1);
    table.states[0] = State { default: Action::Block, marks: (1 << rules.len()) - 1 };
    table
}

fn rule(settings: u32) -> Rule {
    Rule { set: settings, ..read_table(&[0; TABLE_IMAGE]).rules[0] }
}

fn tracked(places: u8, numbers: [u8; SOCKETS]) -> Rule {
    Rule { kind: Kind::Tcp, places, numbers, idle: 1_000, ..rule(set::KIND | set::TRACKING) }
}

/// A table with its records, judged frame by frame.
struct Bench {
    table: Table,
    records: Records,
}

impl Bench {
    fn new(rules: &[Rule]) -> Bench {
        let table = table(rules);
        assert_eq!(table.check(), Ok(()));
        Bench { table, records: Records::empty(0) }
    }

    /// Verdict, rule id and event.
    fn judge(&mut self, reading: u64, socket: u8, frame: &[u8]) -> (Verdict, u16, Vec<u8>) {
        let mut space = [170; 256];
        let answer = judge(&self.table, &mut self.records, socket, frame, reading, &mut space).expect("judged");
        (answer.verdict, answer.rule, space[..answer.length].to_vec())
    }

    fn verdict(&mut self, socket: u8, frame: &[u8]) -> u8 {
        self.judge(self.records.last, socket, frame).0.number()
    }

    fn verdicts<const N: usize>(&mut self, calls: [(u8, Vec<u8>); N]) -> [u8; N] {
        calls.map(|(socket, frame)| self.verdict(socket, &frame))
    }

    /// The socket and state of each place of the first rule that is held.
    fn held(&self) -> Vec<(usize, u8, u8)> {
        let all = self.records.held[0].iter().zip(self.records.sockets[0]).enumerate();
        all.filter(|(_, (state, _))| **state != FREE).map(|(slot, (state, socket))| (slot, socket, *state)).collect()
    }
}

fn syn(port: u16) -> Vec<u8> {
    tcp(port, SYN)
}

// ---- "A rule may name a socket, 0 or 1, or leave it unset; it belongs to the link layer"

#[test]
fn a_rule_that_names_a_socket_is_for_its_frames_alone() {
    for named in [0, 1] {
        let mut bench = Bench::new(&[Rule { socket: named, ..rule(set::SOCKET) }]);
        for frame in [frame_a(), arp(), syn(1), vec![0; 14]] {
            assert_eq!(bench.verdict(named, &frame), 0);
            assert_eq!(bench.verdict(1 - named, &frame), 6);
        }
    }
}

#[test]
fn one_that_leaves_it_unset_is_for_both() {
    // What it holds means nothing then, be it a socket or not.
    for socket in [0, 1, 2, 255] {
        let mut bench = Bench::new(&[Rule { ether: 0x0806, socket, ..rule(set::ETHER) }]);
        assert_eq!(bench.verdicts([(0, arp()), (1, arp()), (0, frame_a()), (1, frame_a())]), [0, 0, 6, 6]);
    }
}

#[test]
fn the_first_rule_for_the_socket_decides() {
    let mut bench = Bench::new(&[
        Rule { socket: 1, action: Action::Block, ..rule(set::SOCKET) },
        Rule { socket: 0, ether: 0x0806, ..rule(set::SOCKET | set::ETHER) },
        rule(0),
    ]);
    let decided = |bench: &mut Bench, socket, frame: &[u8]| {
        let (verdict, rule, _) = bench.judge(0, socket, frame);
        (verdict, rule)
    };
    assert_eq!(decided(&mut bench, 1, &arp()), (Verdict::Blocked, 1));
    assert_eq!(decided(&mut bench, 0, &arp()), (Verdict::Passed, 2));
    assert_eq!(decided(&mut bench, 0, &frame_a()), (Verdict::Passed, 3));
}

/// The rule's other layers match, and what an event shows goes by the link alone.
#[test]
fn another_socket_is_a_link_mismatch() {
    let asks = Rule { socket: 1, ether: 0x0800, kind: Kind::Udp, ..rule(set::SOCKET | set::ETHER | set::KIND) };
    let mut event = [77u16.to_be_bytes(), 1u16.to_be_bytes()].concat();
    event.extend(&frame_a()[..14]);
    event.resize(4 + 30, 0);
    assert_eq!(Bench::new(&[asks]).judge(0, 0, &frame_a()), (Verdict::BlockedByDefault, NO_RULE, event));
    assert_eq!(Bench::new(&[asks]).judge(0, 1, &frame_a()).0, Verdict::Passed);
}

/// "count the matching layers from link upward to the first that doesn't match"
#[test]
fn a_rule_for_the_other_socket_fits_worst() {
    let near = Rule { socket: 1, kind: Kind::Udp, ..rule(set::SOCKET | set::KIND) };
    let far = Rule { kind: Kind::Tcp, ..rule(set::KIND) };
    let mut bench = Bench::new(&[near, far]);
    let (_, _, event) = bench.judge(0, 0, &frame_a());
    assert_eq!(event[..4], [0, 54, 0, 2]);
    let (_, _, event) = bench.judge(0, 1, &arp());
    assert_eq!(event[..4], [0, 55, 0, 1], "on its socket the first fits as well as the second");
}

// ---- "Each rule has a bucket per socket"

fn limited() -> Rule {
    Rule { ether: 0x0806, size: 2, refill: 1, ..rule(set::ETHER | set::RATE) }
}

#[test]
fn a_frame_raises_and_is_held_to_its_own_sockets_level() {
    let mut bench = Bench::new(&[limited()]);
    assert_eq!(bench.verdicts([0, 0, 0, 0].map(|socket| (socket, arp()))), [0, 0, 3, 3]);
    assert_eq!(bench.records.levels[0], [4_000, 0]);
    assert_eq!(bench.verdicts([1, 1, 1, 0].map(|socket| (socket, arp()))), [0, 0, 3, 3]);
    assert_eq!(bench.records.levels[0], [5_000, 3_000]);
}

#[test]
fn both_levels_drain() {
    for socket in [0, 1] {
        let mut bench = Bench::new(&[limited(), rule(0)]);
        bench.records.levels[0] = [5_000, 300];
        bench.judge(200, socket, &frame_a());
        assert_eq!(bench.records.levels[0], [4_800, 100], "by a frame of either socket");
        bench.judge(1_000, socket, &frame_a());
        assert_eq!(bench.records.levels[0], [4_000, 0]);
    }
    let mut bench = Bench::new(&[limited()]);
    bench.records.levels[0] = [2_500, 2_500];
    assert_eq!(bench.judge(1_500, 1, &arp()).0, Verdict::Passed);
    assert_eq!(bench.records.levels[0], [1_000, 2_000]);
}

#[test]
fn each_level_stops_at_the_highest_and_rises_on_a_block_rule_too() {
    let mut bench = Bench::new(&[Rule { action: Action::Block, ..limited() }]);
    bench.records.levels[0] = [7, HIGHEST_LEVEL - 1];
    assert_eq!(bench.verdicts([(1, arp()), (0, arp())]), [2, 2]);
    assert_eq!(bench.records.levels[0], [1_007, HIGHEST_LEVEL]);
}

#[test]
fn a_level_of_either_socket_makes_a_record_bad() {
    let check = |rule: Rule, levels| {
        let mut bench = Bench::new(&[rule]);
        bench.records.levels[0] = levels;
        bench.records.check(&bench.table)
    };
    assert_eq!(check(limited(), [HIGHEST_LEVEL, HIGHEST_LEVEL]), Ok(()));
    for levels in [[HIGHEST_LEVEL + 1, 0], [0, HIGHEST_LEVEL + 1], [u32::MAX, 5]] {
        assert_eq!(check(limited(), levels), Err(Refusal::BadRecord));
    }
    for levels in [[1, 0], [0, 1]] {
        assert_eq!(check(rule(0), levels), Err(Refusal::BadRecord), "without a bucket");
        let mut bench = Bench::new(&[limited()]);
        bench.records.levels[63] = levels;
        assert_eq!(bench.records.check(&bench.table), Err(Refusal::BadRecord), "without a rule");
    }
}

// ---- "Places stay common, but a tracking rule states how many each socket may hold, 0 to its places"

#[test]
fn numbers_of_0_to_the_places_are_good() {
    for places in 1..=8 {
        for number0 in 0..=9 {
            for number1 in 0..=9 {
                let refused = match (number0 > places, number1 > places) {
                    (false, false) => Ok(()),
                    (true, _) => Err(Refusal::BadTable { place: 0, setting: 25 }),
                    (false, true) => Err(Refusal::BadTable { place: 0, setting: 26 }),
                };
                assert_eq!(table(&[tracked(places, [number0, number1])]).check(), refused);
            }
        }
    }
}

#[test]
fn both_take_the_first_free_place() {
    let mut bench = Bench::new(&[tracked(4, [4, 4])]);
    assert_eq!(bench.verdicts([(0, syn(1)), (1, syn(2)), (0, syn(3))]), [0, 0, 0]);
    assert_eq!(bench.held(), [(0, 0, OPENING), (1, 1, OPENING), (2, 0, OPENING)]);
    assert_eq!(bench.verdicts([(0, tcp(1, RST)), (1, syn(4)), (1, syn(5)), (0, syn(6))]), [0, 0, 0, 5]);
    assert_eq!(bench.held(), [(0, 1, OPENING), (1, 1, OPENING), (2, 0, OPENING), (3, 1, OPENING)]);
}

#[test]
fn a_freed_place_is_as_in_a_fresh_record_whose_ever_it_was() {
    for (frame, elapsed) in [(tcp(1, RST), 0), (arp(), 1_000)] {
        let mut bench = Bench::new(&[tracked(1, [1, 1])]);
        bench.judge(0, 1, &syn(1));
        assert_eq!(bench.records.sockets[0][0], 1);
        bench.judge(elapsed, 1, &frame);
        let empty = Records::empty(elapsed);
        assert_eq!((bench.records.held, bench.records.sockets), (empty.held, empty.sockets));
        assert_eq!(bench.records.conversations, empty.conversations);
    }
}

// ---- "a socket at its number gets verdict 5"

#[test]
fn at_its_number_though_a_place_is_free() {
    for socket in [0, 1] {
        let mut numbers = [3; SOCKETS];
        numbers[usize::from(socket)] = 2;
        let mut bench = Bench::new(&[tracked(3, numbers)]);
        assert_eq!(bench.verdicts([1, 2].map(|port| (socket, syn(port)))), [0, 0]);
        let third = syn(3);
        let mut event = [61u16.to_be_bytes(), 1u16.to_be_bytes()].concat();
        event.extend(&third[34..54]);
        event.resize(4 + 24, 0);
        let before = bench.held();
        assert_eq!(bench.judge(0, socket, &third), (Verdict::NoFreePlace, 1, event));
        assert_eq!(bench.held(), before);
        assert_eq!(bench.verdict(1 - socket, &third), 0, "the other is not");
        assert_eq!(bench.verdict(1 - socket, &syn(4)), 5, "it is below its number, but no place is free");
    }
}

#[test]
fn a_number_of_0_lets_its_socket_hold_nothing() {
    let mut bench = Bench::new(&[tracked(2, [0, 2])]);
    assert_eq!(bench.verdicts([(0, syn(1)), (0, tcp(1, ACK)), (1, syn(1)), (0, syn(1))]), [5, 41, 0, 5]);
    let mut bench = Bench::new(&[tracked(2, [1, 0])]);
    assert_eq!(bench.verdicts([(1, syn(1)), (0, syn(1)), (1, syn(1))]), [5, 0, 5]);
    let mut bench = Bench::new(&[tracked(8, [0, 0])]);
    assert_eq!(bench.verdicts([(0, syn(1)), (1, syn(1))]), [5, 5]);
}

#[test]
fn what_is_held_goes_on_at_the_number() {
    let mut bench = Bench::new(&[tracked(2, [1, 1])]);
    let (syn_again, ack, fin) = (tcp(1, SYN | ACK), tcp(1, ACK), tcp(1, FIN | ACK));
    assert_eq!(bench.verdicts([(0, syn(1)), (0, syn_again), (0, ack), (0, syn(1)), (0, fin)]), [0, 0, 0, 42, 0]);
    assert_eq!(bench.held(), [(0, 0, CLOSING)]);
    // Wrong flags and what is not open come before the number.
    assert_eq!(bench.verdicts([(0, tcp(2, 0)), (0, tcp(2, ACK)), (0, syn(2))]), [40, 41, 5]);
    assert_eq!(bench.verdicts([(0, tcp(1, RST)), (0, syn(2)), (0, syn(1))]), [0, 0, 5]);
}

#[test]
fn one_that_ends_for_its_age_makes_room_under_the_number() {
    let mut bench = Bench::new(&[tracked(4, [1, 1])]);
    assert_eq!(bench.judge(0, 0, &syn(1)).0, Verdict::Passed);
    assert_eq!(bench.judge(999, 0, &syn(2)).0, Verdict::NoFreePlace);
    assert_eq!(bench.judge(1_000, 0, &syn(2)).0, Verdict::Passed);
}

// ---- "A record with a socket above its number is bad"

/// Records in which so many places of the first rule are held by each socket, in turn as long as both are left.
fn holding([held0, held1]: [u8; SOCKETS]) -> Records {
    let mut records = Records::empty(0);
    let (mut left, mut slot) = ([held0, held1], 0);
    while left != [0, 0] {
        for socket in [0, 1] {
            if left[usize::from(socket)] > 0 {
                left[usize::from(socket)] -= 1;
                let quadruple = Quadruple::new(ADDRESSES, 443, slot as u16);
                records.hold(0, slot, 1 + slot as u8 % 3, socket, Conversation { quadruple, age: 0 });
                slot += 1;
            }
        }
    }
    records
}

#[test]
fn a_record_is_bad_exactly_if_a_socket_is_above_its_number() {
    for places in 1..=8u8 {
        for held in (0..=places).flat_map(|held0| (0..=places - held0).map(move |held1| [held0, held1])) {
            for numbers in (0..=places).flat_map(|number0| (0..=places).map(move |number1| [number0, number1])) {
                let good = held[0] <= numbers[0] && held[1] <= numbers[1];
                let checked = holding(held).check(&table(&[tracked(places, numbers)]));
                assert_eq!(checked.is_ok(), good, "{held:?} of {numbers:?}");
                assert_eq!(holding(held).held_by(0), held);
            }
        }
    }
}

#[test]
fn every_call_that_takes_records_refuses_such_a_one() {
    let table = table(&[tracked(3, [2, 0])]);
    let mut records = holding([1, 1]);
    let before = records.clone();
    assert_eq!(switch(&table, &mut records, 0), Err(Refusal::BadRecord));
    assert_eq!(judge(&table, &mut records, 0, &arp(), 5, &mut [0; 256]), Err(Refusal::BadRecord));
    assert_eq!(records, before);
}

// ---- "Conversations of different sockets are different"

#[test]
fn one_quadruple_on_two_sockets_is_two_conversations() {
    let mut bench = Bench::new(&[tracked(4, [4, 4])]);
    assert_eq!(bench.verdicts([(0, syn(1)), (1, tcp(1, ACK)), (1, syn(1))]), [0, 41, 0]);
    assert_eq!(bench.held(), [(0, 0, OPENING), (1, 1, OPENING)]);
    assert_eq!(bench.verdicts([(1, tcp(1, ACK)), (1, syn(1)), (0, syn(1))]), [0, 42, 0]);
    assert_eq!(bench.held(), [(0, 0, OPENING), (1, 1, RUNNING)]);
    assert_eq!(bench.verdicts([(0, tcp(1, RST)), (0, tcp(1, ACK)), (1, tcp(1, ACK))]), [0, 41, 0]);
    assert_eq!(bench.held(), [(1, 1, RUNNING)]);
}

#[test]
fn a_frame_makes_only_its_own_sockets_conversation_young() {
    let mut bench = Bench::new(&[tracked(2, [1, 1])]);
    bench.judge(0, 0, &syn(1));
    bench.judge(0, 1, &syn(1));
    bench.judge(600, 1, &tcp(1, ACK));
    let ages = [0, 1].map(|slot| bench.records.conversations[0][slot].age);
    assert_eq!(ages, [600, 0]);
    bench.judge(1_000, 1, &tcp(1, ACK));
    assert_eq!(bench.held(), [(1, 1, RUNNING)]);
}

#[test]
fn a_quadruple_repeats_only_on_one_socket() {
    let check = |first: u8, second: u8, addresses: Addresses| {
        let mut records = Records::empty(0);
        for (slot, socket) in [(0, first), (3, second)] {
            let quadruple = Quadruple::new(addresses, 443, 1);
            records.hold(0, slot, RUNNING, socket, Conversation { quadruple, age: 0 });
        }
        records.check(&table(&[tracked(4, [4, 4])])).is_ok()
    };
    for addresses in [ADDRESSES, Addresses::v6(7, 8)] {
        assert!(check(0, 1, addresses) && check(1, 0, addresses));
        assert!(!check(0, 0, addresses) && !check(1, 1, addresses));
    }
}

// ---- "Counts stay per rule"

#[test]
fn frames_of_both_sockets_are_counted_together() {
    let mut bench = Bench::new(&[limited()]);
    let frames = [0, 1, 0, 1, 0, 1].map(|socket| (socket, arp()));
    assert_eq!(bench.verdicts(frames), [0, 0, 0, 0, 3, 3]);
    assert_eq!((bench.records.counts[0].passed, bench.records.counts[0].blocked), (4, 2));
    bench.verdicts([(0, frame_a()), (1, frame_a())]);
    assert_eq!(bench.records.default.blocked, 2);
}

// ---- "what one socket is answered must not depend on the other's frames"

/// A call of a run: the socket, the reading and the frame. What is answered, and the event.
type Arrival = (u8, u64, Vec<u8>);
type Told = (Result<Answer, Refusal>, Vec<u8>);

fn told(table: &Table, start: &Records, arrivals: &[&Arrival]) -> Vec<Told> {
    let mut records = start.clone();
    let each = arrivals.iter().map(|(socket, reading, frame)| {
        let mut space = [0; 256];
        let judged = judge(table, &mut records, *socket, frame, *reading, &mut space);
        (judged, space[..judged.map_or(0, |answer| answer.length)].to_vec())
    });
    each.collect()
}

/// What a socket is told in the whole run, and what where the other's frames are struck out.
fn with_and_without(table: &Table, start: &Records, arrivals: &[Arrival], socket: u8) -> (Vec<Told>, Vec<Told>) {
    let (all, own): (Vec<&Arrival>, Vec<&Arrival>) =
        (arrivals.iter().collect(), arrivals.iter().filter(|arrival| arrival.0 == socket).collect());
    let of = |(arrival, told): (&&Arrival, Told)| (arrival.0 == socket).then_some(told);
    (all.iter().zip(told(table, start, &all)).filter_map(of).collect(), told(table, start, &own))
}

/// A drawn table whose numbers together do not exceed the places.
fn shared_table(number: u64, random: &mut Random) -> Table {
    let mut table = draw_table(number, random);
    for rule in &mut table.rules[..usize::from(table.rule_count)] {
        rule.numbers[1] = rule.numbers[1].min(rule.places - rule.numbers[0]);
    }
    assert_eq!(table.check(), Ok(()));
    table
}

/// Frames of a table, many of them of few conversations, on either socket, whose readings never go back; now and then one that is
/// refused.
fn arrivals(table: &Table, start: u64, random: &mut Random) -> Vec<Arrival> {
    let rules = table.rules();
    let tracking: Vec<&Rule> = rules.iter().filter(|rule| rule.has(set::TRACKING)).collect();
    let segments: Vec<Draft> = (0..12).map(|_| aim(random.pick(&tracking), random)).collect();
    let mut reading = start;
    let drawn = (0..300).map(|_| {
        reading += random.pick(&[0, 0, 1, 1, 5, 30, 400]);
        let frame = match random.below(10) {
            0 => vec![0; random.pick(&[13, 1_519])],
            1 => draw_frame(random).bytes(random),
            2..=6 => {
                let flags = random.pick(&[SYN, SYN, SYN | ACK, ACK, FIN | ACK, RST, 0]);
                Draft { flags, ..segments[random.below(12) as usize].clone() }.bytes(random)
            }
            _ => aim(&rules[random.below(rules.len() as u64) as usize], random).bytes(random),
        };
        (random.below(2) as u8, reading, frame)
    });
    drawn.collect()
}

#[test]
fn a_socket_is_told_the_same_without_the_others_frames() {
    let random = &mut Random::new(6);
    let mut verdicts = [0; 256];
    for number in 0..60 {
        let table = shared_table(number, random);
        let mut start = fresh(&table, 1_000).expect("a good table");
        for from in [1_000, 200_000] {
            let arrivals = arrivals(&table, from, random);
            for socket in [0, 1] {
                let (with, without) = with_and_without(&table, &start, &arrivals, socket);
                assert_eq!(with, without, "table {number}, socket {socket}");
                with.iter().filter_map(|told| told.0.ok()).for_each(|answer| {
                    verdicts[usize::from(answer.verdict.number())] += 1;
                });
            }
            // The second run starts from the records that the first leaves.
            arrivals.iter().for_each(|(socket, reading, frame)| {
                let _ = judge(&table, &mut start, *socket, frame, *reading, &mut [0; 256]);
            });
        }
    }
    assert!([0, 2, 3, 5, 6, 40, 41, 42].iter().all(|verdict| verdicts[*verdict] > 0), "{verdicts:?}");
}

/// Why the numbers together may not exceed the places.
#[test]
fn it_can_depend_where_the_numbers_exceed_the_places() {
    let table = table(&[tracked(2, [2, 1])]);
    let arrivals: Vec<Arrival> = vec![(1, 0, syn(1)), (0, 0, syn(1)), (0, 0, syn(2))];
    let (with, without) = with_and_without(&table, &Records::empty(0), &arrivals, 0);
    assert_ne!(with, without);
}

/// Why the readings may not go back.
#[test]
fn it_can_depend_where_the_clock_goes_back() {
    let table = table(&[limited()]);
    let arrivals: Vec<Arrival> =
        vec![(0, 9_000, arp()), (0, 9_000, arp()), (1, 0, arp()), (1, 5_000, arp()), (0, 9_000, arp())];
    let (with, without) = with_and_without(&table, &Records::empty(9_000), &arrivals, 0);
    assert_ne!(with, without);
}

// ---- "T allows each socket 2; captures and M1 to M11 use socket 0"

#[test]
fn t_allows_each_socket_2() {
    for sockets in [[0, 0, 0, 1], [1, 1, 1, 0], [0, 1, 0, 1]] {
        let mut bench = Bench { table: table_t(), records: Records::empty(0) };
        let mut port = 0;
        let calls = sockets.map(|socket| {
            port += 1;
            (socket, syn(port))
        });
        assert_eq!(bench.verdicts(calls), [0, 0, 5, 5], "{sockets:?}");
    }
    let rule = &table_t().rules[1];
    assert_eq!((rule.places, rule.numbers, rule.set & set::TRACKING), (2, [2, 2], set::TRACKING));
}

#[test]
fn a_recordings_stream_says_no_socket() {
    let mut capture = vec![0xd4, 0xc3, 0xb2, 0xa1, 2, 0, 4, 0, 0, 0, 0, 0, 0, 0, 0, 0, 0, 0, 1, 0, 1, 0, 0, 0];
    capture.extend([0; 8]);
    capture.extend([42, 0, 0, 0, 42, 0, 0, 0]);
    capture.extend(arp());
    let mut stream = Vec::new();
    recording::stream(&mut &capture[..], &mut stream).expect("written");
    assert_eq!(stream[1 + TABLE_IMAGE], b'F');
    assert_eq!(stream[1 + TABLE_IMAGE + 9], b'J');
    assert_eq!(printed(&stream), "F\nJ 0 30 0 -\nP 0 0 0 0\np 2 1000 0 1 0\n.\n");
}

// ---- "Refusals: 9 for a socket above 1, after 6"

#[test]
fn a_socket_above_1_is_refused_9() {
    let mut bench = Bench::new(&[rule(0)]);
    for socket in 2..=255 {
        let mut space = [170; 256];
        let judged = judge(&bench.table, &mut bench.records, socket, &arp(), 7, &mut space);
        assert_eq!(judged, Err(Refusal::NoSuchSocket));
        assert_eq!((bench.records.last, bench.records.counts[0].passed), (0, 0));
        assert_eq!(space, [170; 256]);
    }
    assert_eq!(Refusal::NoSuchSocket.number(), 9);
    assert_eq!(Refusal::NoSuchSocket.place_and_setting(), (0, 0));
}

#[test]
fn it_comes_after_4_and_5_and_before_1_2_and_3() {
    let (good, bad) = (table(&[tracked(1, [1, 1])]), table(&[tracked(1, [2, 1])]));
    let number = |table: &Table, held, frame: &[u8], space: usize| {
        let judged = judge(table, &mut holding(held), 2, frame, 0, &mut vec![0; space]);
        judged.expect_err("refused").number()
    };
    assert_eq!(number(&bad, [1, 1], &[0; 5], 0), 4);
    assert_eq!(number(&good, [1, 1], &[0; 5], 0), 5);
    for (frame, space) in [(vec![0; 5], 0), (vec![0; 5], 256), (vec![0; 1_519], 256), (arp(), 255), (arp(), 256)] {
        assert_eq!(number(&good, [1, 0], &frame, space), 9);
    }
}

// ---- the case stream

fn printed(stream: &[u8]) -> String {
    let mut output = Vec::new();
    run(&mut &stream[..], &mut output).expect("a run in memory");
    String::from_utf8(output).expect("plain text")
}

fn judge_call(frame: &[u8]) -> Vec<u8> {
    let mut call = b"J\0\0\0\0\0\0\0\0\x01\0".to_vec();
    call.extend((frame.len() as u16).to_be_bytes());
    call.extend(frame);
    call
}

fn table_call(table: &Table) -> Vec<u8> {
    [b"T".to_vec(), write_table(table, &mut Random::new(1))].concat()
}

#[test]
fn the_letter_says_the_socket_of_the_judge_calls_that_follow() {
    let start = table_call(&table(&[Rule { socket: 1, ..rule(set::SOCKET) }]));
    let link = "J 6 65535 34 004d0001ffffffffffff020000000007080600000000000000000000000000000000\n";
    let call = judge_call(&arp());
    let with = |calls: &[&[u8]]| printed(&[&start[..], &calls.concat()].concat());
    assert_eq!(with(&[&call]), link, "0 at first");
    assert_eq!(with(&[b"S\x01", &call, &call]), "J 0 1 0 -\nJ 0 1 0 -\n");
    assert_eq!(with(&[b"S\x01S\x02", &call, b"S\x00", &call]), format!("X 9 0 0\n{link}"));
    let many = [&b"B\0\0\0\x03\0\0\0\x01"[..], &call[1..]].concat();
    assert_eq!(with(&[b"S\x01", &many]), "J 0 1 0 -\n");
    assert_eq!(with(&[b"S\xff", &many, b"S"]), "X 9 0 0\n?\n");
    // The other calls take no socket.
    assert_eq!(with(&[b"S\x02CF\0\0\0\0\0\0\0\x05V\0P"]), "C\nF\nV\nP 5 0 0 0\n.\n");
    let layers = [b"L".to_vec(), call[11..].to_vec()].concat();
    assert_eq!(with(&[b"S\x02", &layers]), "L ffffffffffff 020000000007 - 2054 - - -\n");
}

#[test]
fn it_stays_in_force_across_tables_and_records() {
    let table = table_call(&table(&[Rule { socket: 1, ..rule(set::SOCKET) }]));
    let records = [b"R".to_vec(), write_records(&Records::empty(0), &mut Random::new(1))].concat();
    let call = judge_call(&arp());
    let fresh = b"F\0\0\0\0\0\0\0\0".to_vec();
    let stream = [&table, &b"S\x01".to_vec(), &table, &call, &records, &call, &fresh, &call, &table, &call];
    assert_eq!(printed(&stream.map(|part| &part[..]).concat()), "J 0 1 0 -\nJ 0 1 0 -\nF\nJ 0 1 0 -\nJ 0 1 0 -\n");
}

#[test]
fn lines_of_both_levels_and_of_sockets() {
    let mut records = holding([1, 1]);
    records.levels[2] = [0, 7];
    records.levels[3] = [8, 0];
    let printed = printed(&[b"R".to_vec(), write_records(&records, &mut Random::new(1)), b"P".to_vec()].concat());
    let conversations = "c 0 0 0 167772169 167837697 443 0 1 0\nc 0 1 1 167772169 167837697 443 1 2 0\n";
    let levels = "p 2 0 7 0 0\np 3 8 0 0 0\n";
    assert_eq!(printed, format!("P 0 0 0 0\np 0 0 0 0 0\n{conversations}{levels}.\n"));
}

#[test]
fn the_bytes_of_a_rule() {
    let mut image = [0; TABLE_IMAGE];
    let at = 1 + 192;
    image[at + 96..at + 99].copy_from_slice(&[1, 3, 4]);
    for (bit, setting) in [(23, set::SOCKET), (24, set::NUMBER0), (25, set::NUMBER1), (26, 0), (31, 0)] {
        image[at + SETTINGS_AT..at + SETTINGS_AT + 4].copy_from_slice(&(1u32 << bit).to_be_bytes());
        let rule = read_table(&image).rules[1];
        assert_eq!((rule.set, rule.socket, rule.numbers), (setting, 1, [3, 4]));
    }
    let rules = [Rule { socket: 1, ..rule(set::SOCKET) }, tracked(5, [4, 3]), rule(0)];
    for seed in 0..20 {
        let read = read_table(&write_table(&table(&rules), &mut Random::new(seed)));
        assert_eq!((read.rules[0].set, read.rules[0].socket), (set::SOCKET, 1));
        assert_eq!((read.rules[1].set, read.rules[1].numbers), (rules[1].set, [4, 3]));
        assert_eq!(read.rules[2].set, 0, "what lies above the known bits means nothing");
    }
}

#[test]
fn the_bytes_of_a_record() {
    let mut records = holding([2, 1]);
    records.levels[0] = [5, 0x0102_0304];
    let mut image = write_records(&records, &mut Random::new(3));
    assert_eq!(read_records(&image), records);
    assert_eq!(image.len(), RECORD_IMAGE);
    assert_eq!(image[20..24], [0, 0, 0, 5]);
    assert_eq!(image[32..36], [1, 2, 3, 4]);
    let socket_at = |slot: usize| 20 + 16 + 64 * slot + 50;
    assert_eq!([0, 2].map(|slot| image[socket_at(slot)]), [0, 0]);
    for byte in 1..=255 {
        image[socket_at(1)] = byte;
        assert_eq!(read_records(&image), records, "0, else 1");
    }
    // Those of a free place are ignored, and so are the bytes behind it.
    image[socket_at(3)] = 1;
    image[socket_at(0) + 1..socket_at(0) + 14].fill(0x55);
    assert_eq!(read_records(&image), records);
}
