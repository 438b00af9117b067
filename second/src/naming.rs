//! Tests of what a refused table names, each rule of 02's requests 1/12, 2/12 and 6/12 by itself.

use crate::answer::Refusal;
use crate::layers::Kind;
use crate::table::{set, Action, Range, Rule, Table};
use crate::table_t::table_t;

const TURNED: Range = Range { low: 2, high: 1 };
const TRACKED: u32 = set::KIND | set::TRACKING;

fn refused(table: &Table) -> (u8, u8) {
    match table.check() {
        Err(refusal @ Refusal::BadTable { .. }) => refusal.place_and_setting(),
        other => panic!("no bad table: {other:?}"),
    }
}

/// Table T with these set of rule 30, at place 2, which is then altered.
fn table(settings: u32, alter: fn(&mut Rule)) -> Table {
    let mut table = table_t();
    table.rules[2] = Rule { set: settings, kind: Kind::Tcp, places: 1, idle: 1, numbers: [1, 1], ..table.rules[2] };
    alter(&mut table.rules[2]);
    table
}

/// The setting that is named at that rule.
fn named(settings: u32, alter: fn(&mut Rule)) -> u8 {
    let (place, setting) = refused(&table(settings, alter));
    assert_eq!(place, 2);
    setting
}

fn good(settings: u32, alter: fn(&mut Rule)) -> bool {
    table(settings, alter).check().is_ok()
}

#[test]
fn the_id_comes_first() {
    assert_eq!(named(0, |rule| rule.id = 65_535), 0);
    assert_eq!(named(0, |rule| rule.id = 20), 0);
    assert_eq!(named(set::VLAN | set::SIZE, |rule| (rule.id, rule.vlan) = (65_535, 4_095)), 0);
    assert_eq!(named(set::VLAN | set::SIZE, |rule| (rule.id, rule.vlan) = (10, 4_095)), 0);
    let mut table = table_t();
    table.rules[1].id = table.rules[3].id;
    assert_eq!(refused(&table), (3, 0), "the later rule repeats");
}

#[test]
fn a_value_outside_its_range_names_its_setting() {
    assert_eq!(named(set::VLAN, |rule| rule.vlan = 4_095), 3);
    assert_eq!(named(set::PRIORITY, |rule| rule.priority = 8), 4);
    assert_eq!(named(set::SOCKET, |rule| rule.socket = 2), 24);
    assert_eq!(named(set::SOCKET, |rule| rule.socket = 255), 24);
    assert_eq!(named(set::SOURCE, |rule| rule.source.length = 33), 6);
    assert_eq!(named(set::DESTINATION, |rule| rule.destination.length = 33), 7);
    assert_eq!(named(set::SOURCE6, |rule| rule.source6.length = 129), 21);
    assert_eq!(named(set::DESTINATION6, |rule| rule.destination6.length = 129), 22);
    assert_eq!(named(set::IPV6, |rule| rule.destination6.length = 255), 22);
    assert_eq!(named(set::KIND | set::PORTS, |rule| rule.sports = TURNED), 10);
    assert_eq!(named(set::KIND | set::PORTS, |rule| rule.dports = TURNED), 11);
    assert_eq!(named(set::KIND | set::PORTS, |rule| (rule.sports, rule.dports) = (TURNED, TURNED)), 10);
    assert_eq!(named(TRACKED, |rule| rule.places = 0), 19);
    assert_eq!(named(TRACKED, |rule| rule.places = 9), 19);
    assert_eq!(named(TRACKED, |rule| rule.idle = 0), 20);
    assert_eq!(named(TRACKED, |rule| rule.idle = 600_001), 20);
    assert_eq!(named(TRACKED, |rule| (rule.places, rule.idle) = (0, 0)), 19);
}

/// "a tracking rule states how many each socket may hold, 0 to its places"
#[test]
fn a_number_above_the_places_names_itself() {
    assert_eq!(named(TRACKED, |rule| rule.numbers = [2, 0]), 25);
    assert_eq!(named(TRACKED, |rule| rule.numbers = [0, 2]), 26);
    assert_eq!(named(TRACKED, |rule| rule.numbers = [255, 255]), 25);
    assert_eq!(named(TRACKED, |rule| (rule.places, rule.numbers) = (8, [9, 8])), 25);
    assert_eq!(named(TRACKED, |rule| (rule.places, rule.numbers) = (8, [8, 9])), 26);
    // What comes before them in the order is named first.
    assert_eq!(named(TRACKED, |rule| (rule.places, rule.numbers) = (9, [10, 10])), 19);
    assert_eq!(named(TRACKED, |rule| (rule.places, rule.numbers) = (0, [1, 1])), 19);
    assert_eq!(named(TRACKED, |rule| (rule.idle, rule.numbers) = (0, [2, 2])), 20);
    assert!(good(TRACKED, |rule| (rule.places, rule.numbers) = (8, [8, 8])));
    assert!(good(TRACKED, |rule| rule.numbers = [0, 0]));
    assert!(good(set::SOCKET, |rule| rule.socket = 0) && good(set::SOCKET, |rule| rule.socket = 1));
}

#[test]
fn what_is_not_set_is_not_at_fault() {
    let all_bad = |rule: &mut Rule| {
        (rule.vlan, rule.priority, rule.source.length, rule.destination.length) = (4_095, 8, 33, 33);
        (rule.source6.length, rule.destination6.length) = (129, 129);
        (rule.sports, rule.dports, rule.places, rule.idle) = (TURNED, TURNED, 0, 0);
        (rule.socket, rule.numbers) = (2, [9, 9]);
    };
    assert!(good(0, all_bad));
    assert!(good(set::KIND | set::SOMEIP | set::RATE | set::ETHER | set::PROTOCOL, all_bad));
    assert!(good(set::PROTOCOL6, all_bad));
    assert!(good(TRACKED, |_| {}));
}

#[test]
fn half_a_pair_names_its_set_half() {
    assert_eq!(named(set::SIZE, |_| {}), 17);
    assert_eq!(named(set::REFILL, |_| {}), 18);
    assert_eq!(named(set::KIND | set::PLACES, |_| {}), 19);
    assert_eq!(named(set::KIND | set::IDLE, |_| {}), 20);
    assert_eq!(named(set::KIND | set::PLACES, |rule| rule.places = 0), 19);
    assert_eq!(named(set::KIND | set::IDLE, |rule| rule.idle = 0), 20);
    // What the unset half holds means nothing.
    assert_eq!(named(set::KIND | set::IDLE, |rule| rule.places = 0), 20);
}

/// Each choice of the four settings of tracking but none and all, and the one that is named: the first.
fn parts_of_tracking() -> impl Iterator<Item = (u32, u8)> {
    let settings = [(set::PLACES, 19), (set::IDLE, 20), (set::NUMBER0, 25), (set::NUMBER1, 26)];
    (1..15).map(move |choice| {
        let chosen: Vec<(u32, u8)> = (0..4).filter(|at| choice >> at & 1 != 0).map(|at| settings[at]).collect();
        (chosen.iter().fold(0, |set, (setting, _)| set | setting), chosen[0].1)
    })
}

#[test]
fn tracking_of_which_something_is_not_set_names_its_first() {
    for (part, first) in parts_of_tracking() {
        assert_eq!(named(set::KIND | part, |_| {}), first);
        // Whatever is wrong with the others, or not set, comes later or means nothing.
        let all_bad = |rule: &mut Rule| (rule.places, rule.idle, rule.numbers) = (0, 0, [255, 255]);
        assert_eq!(named(set::KIND | part, all_bad), first);
        assert_eq!(named(set::KIND | part, |rule| rule.action = Action::Block), first, "on a block rule");
        assert_eq!(named(set::KIND | part, |rule| rule.kind = Kind::Udp), first, "on UDP");
        assert_eq!(named(part, |_| {}), first, "without a kind");
    }
    assert!(good(TRACKED, |_| {}));
}

#[test]
fn ports_without_a_kind_name_their_first_range() {
    assert_eq!(named(set::SOURCE_PORTS, |_| {}), 10);
    assert_eq!(named(set::DEST_PORTS, |_| {}), 11);
    assert_eq!(named(set::PORTS, |_| {}), 10);
    assert_eq!(named(set::PORTS, |rule| rule.dports = TURNED), 10);
    assert_eq!(named(set::SOURCE_PORTS, |rule| rule.sports = TURNED), 10);
    assert_eq!(named(set::DEST_PORTS, |rule| rule.sports = TURNED), 11);
    assert_eq!(named(set::PORTS | set::TRACKING, |_| {}), 10, "before the tracking that lacks a kind too");
}

#[test]
fn misplaced_tracking_names_its_first_set_half() {
    assert_eq!(named(TRACKED, |rule| rule.action = Action::Block), 19);
    assert_eq!(named(TRACKED, |rule| rule.kind = Kind::Udp), 19);
    assert_eq!(named(set::TRACKING, |_| {}), 19);
    assert_eq!(named(set::KIND | set::IDLE, |rule| rule.action = Action::Block), 20);
    assert_eq!(named(set::IDLE, |_| {}), 20);
    assert_eq!(named(set::PLACES, |_| {}), 19);
    assert_eq!(named(TRACKED, |rule| (rule.action, rule.idle) = (Action::Block, 0)), 19);
    assert_eq!(named(TRACKED, |rule| (rule.kind, rule.idle) = (Kind::Udp, 0)), 19);
    assert_eq!(named(TRACKED, |rule| (rule.action, rule.numbers) = (Action::Block, [9, 9])), 19);
}

#[test]
fn both_kinds_of_ip_name_the_first_setting_of_ipv6() {
    for ipv4 in [set::SOURCE, set::DESTINATION, set::PROTOCOL, set::IPV4] {
        assert_eq!(named(ipv4 | set::SOURCE6, |_| {}), 21);
        assert_eq!(named(ipv4 | set::DESTINATION6, |_| {}), 22);
        assert_eq!(named(ipv4 | set::PROTOCOL6, |_| {}), 23);
        assert_eq!(named(ipv4 | set::DESTINATION6 | set::PROTOCOL6, |_| {}), 22);
        assert_eq!(named(ipv4 | set::SOURCE6 | set::PROTOCOL6, |_| {}), 21);
        assert_eq!(named(ipv4 | set::IPV6, |rule| rule.destination6.length = 129), 21);
    }
    // What is wrong with IPv4 comes before, and a transport comes after.
    assert_eq!(named(set::IPV4 | set::IPV6, |rule| rule.destination.length = 33), 7);
    assert_eq!(named(set::PROTOCOL | set::PROTOCOL6 | set::PORTS, |_| {}), 23);
    assert!(good(set::IPV6, |_| {}));
}

#[test]
fn prefixes_of_every_length_to_128_are_good() {
    for length in 0..=128 {
        let mut table = table(set::SOURCE6 | set::DESTINATION6, |_| {});
        (table.rules[2].source6.length, table.rules[2].destination6.length) = (length, 128 - length);
        assert!(table.check().is_ok());
    }
}

/// All at fault at once, and one after the other unset.
#[test]
fn settings_go_by_the_order_of_01() {
    let spoil = |rule: &mut Rule| {
        (rule.vlan, rule.priority, rule.source.length, rule.destination.length) = (4_095, 8, 33, 33);
        (rule.source6.length, rule.destination6.length, rule.socket) = (129, 129, 2);
    };
    let mut left = set::TAG | set::ETHER | set::SOCKET | set::IPV4 | set::IPV6 | set::PORTS | set::SIZE | set::TRACKING;
    for (number, setting) in [
        (3, set::VLAN),
        (4, set::PRIORITY),
        (24, set::SOCKET),
        (6, set::SOURCE),
        (7, set::DESTINATION),
        (21, set::SOURCE6),
        (22, set::DESTINATION6),
        // The protocol of IPv4 is still set.
        (23, set::PROTOCOL6),
        (10, set::SOURCE_PORTS),
        (11, set::DEST_PORTS),
        (17, set::SIZE),
        (19, set::PLACES),
        (20, set::IDLE),
        (25, set::NUMBER0),
        (26, set::NUMBER1),
    ] {
        assert_eq!(named(left, spoil), number);
        left &= !setting;
    }
    assert!(good(left, spoil));
    assert_eq!(named(set::REFILL | set::IDLE, |_| {}), 18);
}

#[test]
fn the_first_rule_at_fault_is_named_whatever_its_setting() {
    let mut table = table_t();
    table.rules[1].idle = 0;
    table.rules[2].id = 65_535;
    assert_eq!(refused(&table), (1, 20));
    table.state_count = 0;
    assert_eq!(refused(&table), (1, 20), "rules come before states");
}

#[test]
fn states_and_rule_count_name_none() {
    let with = |alter: fn(&mut Table)| {
        let mut table = table_t();
        alter(&mut table);
        refused(&table)
    };
    assert_eq!(with(|table| table.state_count = 0), (64, 255));
    assert_eq!(with(|table| table.state_count = 9), (64, 255));
    assert_eq!(with(|table| table.states[0].marks |= 1 << 4), (64, 255));
    assert_eq!(with(|table| (table.rule_count, table.rules[0].id) = (65, 65_535)), (64, 255));
}
