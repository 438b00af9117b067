//! Faults brought on purpose: in a good table, or one at a time under good records.

mod tables;

pub use tables::BadTable;

use crate::layers::Addresses;
use crate::random::Random;
use crate::records::{Conversation, Quadruple, Records, FREE, HIGHEST_LEVEL, OPENING};
use crate::table::{set, Rule, Table, PLACES, RULES, SOCKETS};

/// Those that only an image can bring come last, since all conversations are gone after them. A level is that of socket 0, and level1
/// that of socket 1 where socket 0 has none.
pub const RECORD_FAULTS: [&str; 15] = [
    "state-missing",
    "level-without-bucket",
    "level-beyond-rules",
    "conversation-beyond-rules",
    "conversation-without-tracking",
    "socket-0-above-number",
    "socket-1-above-number",
    "conversation-without-place",
    "age-at-limit",
    "level-above-highest",
    "level1-without-bucket",
    "level1-beyond-rules",
    "level1-above-highest",
    "quadruple-twice",
    "quadruple6-twice",
];

/// The first place whose rule is as asked.
fn place_of(table: &Table, asked: impl Fn(&Rule) -> bool) -> Option<usize> {
    table.rules().iter().position(asked)
}

/// The socket of a fault: 0, but for some.
fn socket_of(fault: &str) -> u8 {
    u8::from(["level1-", "socket-1-", "quadruple6-"].iter().any(|start| fault.starts_with(start)))
}

/// Spoils good records in this one way; none where the table gives no room for it.
pub fn spoil_records(records: &mut Records, table: &Table, fault: &str, random: &mut Random) -> Option<()> {
    let beyond = Some(table.rules().len()).filter(|count| *count < RULES);
    match fault {
        "state-missing" => {
            records.state = random.pick(&[u32::from(table.state_count), 256, u32::MAX]).max(table.state_count.into());
        }
        "level-above-highest" | "level1-above-highest" => {
            let place = place_of(table, |rule| rule.has(set::RATE))?;
            set_level(records, place, fault, HIGHEST_LEVEL + random.between(1, 295) as u32);
        }
        "level-without-bucket" | "level1-without-bucket" => {
            set_level(records, place_of(table, |rule| !rule.has(set::RATE))?, fault, 1);
        }
        "level-beyond-rules" | "level1-beyond-rules" => {
            set_level(records, random.between(beyond? as u64, 63) as usize, fault, 1);
        }
        "conversation-beyond-rules" => {
            hold(records, random.between(beyond? as u64, 63) as usize, random.below(8) as usize, any_socket(random), 0);
        }
        "conversation-without-tracking" => {
            let place = place_of(table, |rule| !rule.has(set::TRACKING))?;
            hold(records, place, 0, any_socket(random), 0);
        }
        _ => spoil_tracked(records, table, fault, random)?,
    }
    Some(())
}

/// In the places of a rule that tracks, which are made free but for the fault.
fn spoil_tracked(records: &mut Records, table: &Table, fault: &str, random: &mut Random) -> Option<()> {
    match fault {
        "conversation-without-place" => {
            let (place, socket) = room_for(1, random.below(2) as u8, table, |rule| usize::from(rule.places) < PLACES)?;
            clear(records, place);
            hold(records, place, table.rules[place].places.into(), socket, 0);
        }
        "age-at-limit" => {
            let (place, socket) = room_for(1, random.below(2) as u8, table, |_| true)?;
            clear(records, place);
            hold(records, place, 0, socket, table.rules[place].idle);
        }
        "socket-0-above-number" | "socket-1-above-number" => {
            let socket = socket_of(fault);
            let number = |rule: &Rule| rule.numbers[usize::from(socket)];
            let place = place_of(table, |rule| rule.has(set::TRACKING) && number(rule) < rule.places)?;
            clear(records, place);
            for slot in 0..=number(&table.rules[place]) {
                hold(records, place, slot.into(), socket, 0);
                records.conversations[place][usize::from(slot)].quadruple.ports += u32::from(slot);
            }
        }
        "quadruple-twice" | "quadruple6-twice" => {
            let (place, socket) = room_for(2, socket_of(fault), table, |_| true)?;
            clear(records, place);
            let addresses = if fault == "quadruple-twice" { ADDRESSES } else { ADDRESSES6 };
            for slot in [0, usize::from(table.rules[place].places) - 1] {
                hold(records, place, slot, socket, 0);
                records.conversations[place][slot].quadruple.addresses = addresses;
            }
        }
        _ => unreachable!("no fault of this name: {fault}"),
    }
    Some(())
}

/// A rule as asked, and the socket that may hold so many of its places: the one that is wished, where a rule lets it.
fn room_for(count: u8, wished: u8, table: &Table, asked: impl Fn(&Rule) -> bool) -> Option<(usize, u8)> {
    let place = |socket: u8| {
        let may = |rule: &Rule| rule.numbers[usize::from(socket)] >= count;
        place_of(table, |rule| rule.has(set::TRACKING) && asked(rule) && may(rule))
    };
    [wished, 1 - wished].into_iter().find_map(|socket| Some((place(socket)?, socket)))
}

const ADDRESSES: Addresses = Addresses::V4 { source: 1, destination: 2 };
const ADDRESSES6: Addresses = Addresses::V6 { source: [1; 16], destination: [2; 16] };

fn any_socket(random: &mut Random) -> u8 {
    random.below(SOCKETS as u64) as u8
}

fn set_level(records: &mut Records, place: usize, fault: &str, level: u32) {
    records.levels[place] = [0; SOCKETS];
    records.levels[place][usize::from(socket_of(fault))] = level;
}

fn clear(records: &mut Records, place: usize) {
    (0..PLACES).for_each(|slot| records.free(place, slot));
}

fn hold(records: &mut Records, place: usize, slot: usize, socket: u8, age: u32) {
    records.hold(place, slot, OPENING, socket, Conversation { quadruple: Quadruple::new(ADDRESSES, 3, 4), age });
}

/// A held conversation as asked, by its place, slot and age.
fn held_as(records: &Records, asked: impl Fn(usize, usize, u32) -> bool) -> Option<(usize, usize, u32)> {
    let all = (0..RULES).flat_map(|place| (0..PLACES).map(move |slot| (place, slot)));
    all.map(|(place, slot)| (place, slot, records.conversations[place][slot].age))
        .find(|&(place, slot, age)| records.held[place][slot] != FREE && asked(place, slot, age))
}

/// Puts another good table under good records, so that they are bad by this one fault; none where they give no room for it.
pub fn undercut_records(table: &mut Table, records: &Records, fault: &str) -> Option<()> {
    let levelled = |asked: fn(&[u32; SOCKETS]) -> bool| records.levels.iter().position(asked);
    match fault {
        "state-missing" => table.state_count = u8::try_from(records.state).ok().filter(|state| *state > 0)?,
        "level-without-bucket" => table.rules[levelled(|[level0, _]| *level0 != 0)?].set &= !set::RATE,
        "level1-without-bucket" => table.rules[levelled(|levels| levels[0] == 0 && levels[1] != 0)?].set &= !set::RATE,
        "level-beyond-rules" => keep_rules(table, levelled(|levels| *levels != [0; SOCKETS])?),
        "conversation-beyond-rules" => keep_rules(table, held_as(records, |_, _, _| true)?.0),
        "conversation-without-tracking" => {
            let (place, _, _) = held_as(records, |_, _, _| true)?;
            table.rules[place].set &= !set::TRACKING;
        }
        "conversation-without-place" => {
            let within = |place, slot| records.held_by(place).into_iter().all(|held| usize::from(held) <= slot);
            let (place, slot, _) = held_as(records, |place, slot, _| slot > 0 && within(place, slot))?;
            let rule = &mut table.rules[place];
            rule.places = slot as u8;
            rule.numbers = rule.numbers.map(|number| number.min(slot as u8));
        }
        "age-at-limit" => {
            let (place, _, age) = held_as(records, |_, _, age| age > 0)?;
            table.rules[place].idle = age;
        }
        "socket-0-above-number" | "socket-1-above-number" => {
            let socket = usize::from(socket_of(fault));
            let (place, _, _) = held_as(records, |place, _, _| records.held_by(place)[socket] > 0)?;
            table.rules[place].numbers[socket] = records.held_by(place)[socket] - 1;
        }
        _ => return None,
    }
    Some(())
}

fn keep_rules(table: &mut Table, count: usize) {
    table.rule_count = count as u8;
    for state in &mut table.states {
        state.marks &= (1 << count) - 1;
    }
}
