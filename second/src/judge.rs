//! One frame judged: every check, then the five steps, on records changed in place.

use crate::answer::{Answer, Refusal, Verdict, NO_RULE};
use crate::event;
use crate::layers::{self, Layers, ACK, FIN, RST, SYN};
use crate::matching::{self, Decider};
use crate::records::{Conversation, Quadruple, Records, CLOSING, HIGHEST_LEVEL, OPENING, RUNNING};
use crate::table::{set, Action, Rule, Table, SOCKETS};

/// A frame that is judged: the socket it came in by, its bytes, and what they show.
struct Arrival<'a> {
    socket: u8,
    frame: &'a [u8],
    layers: Layers<'a>,
}

/// Refuses 4, 5, 9, 1, 2, 3 in this order and then changes nothing; else judges.
pub fn judge(
    table: &Table,
    records: &mut Records,
    socket: u8,
    frame: &[u8],
    reading: u64,
    space: &mut [u8],
) -> Result<Answer, Refusal> {
    table.check()?;
    records.check(table)?;
    if usize::from(socket) >= SOCKETS {
        return Err(Refusal::NoSuchSocket);
    }
    let arrival = Arrival { socket, frame, layers: layers::read(frame)? };
    if space.len() < event::SPACE {
        return Err(Refusal::SmallSpace);
    }
    let elapsed = records.elapse(reading);
    records.age(table, elapsed);
    Ok(match matching::decider(table, records.state, socket, &arrival.layers) {
        Decider::Rule(place) => by_rule(table, records, place, &arrival, space),
        Decider::Default(best) => by_default(table, records, best, &arrival, space),
    })
}

fn by_rule(table: &Table, records: &mut Records, place: usize, arrival: &Arrival, space: &mut [u8]) -> Answer {
    let rule = &table.rules[place];
    // The level of its socket rises whatever follows, on a block rule too.
    if rule.has(set::SIZE) {
        let level = &mut records.levels[place][usize::from(arrival.socket)];
        *level = level.saturating_add(1_000).min(HIGHEST_LEVEL);
    }
    let verdict = verdict_of(rule, records, place, arrival);
    records.counts[place].raise(verdict.passes());
    let number = match verdict {
        Verdict::OverRate => event::RATELIMIT,
        Verdict::WrongFlags | Verdict::NoSuchConversation | Verdict::KindNotAllowed => event::TCP_STATETRANSITION,
        Verdict::NoFreePlace => event::TCP_MAXCONNECTIONS,
        _ => return Answer { verdict, rule: rule.id, length: 0 },
    };
    let length = event::write(number, rule.id, arrival.frame, &arrival.layers, space);
    Answer { verdict, rule: rule.id, length }
}

/// Step 4 of a rule that decides.
fn verdict_of(rule: &Rule, records: &mut Records, place: usize, arrival: &Arrival) -> Verdict {
    let level = records.levels[place][usize::from(arrival.socket)];
    if rule.action == Action::Block {
        Verdict::Blocked
    } else if rule.has(set::SIZE) && level > 1_000 * u32::from(rule.size) {
        Verdict::OverRate
    } else if rule.has(set::TRACKING) {
        track(rule, records, place, arrival)
    } else {
        Verdict::Passed
    }
}

fn by_default(
    table: &Table,
    records: &mut Records,
    best: Option<(usize, u8)>,
    arrival: &Arrival,
    space: &mut [u8],
) -> Answer {
    if table.states[records.state as usize].default == Action::Allow {
        records.default.raise(true);
        return Answer { verdict: Verdict::PassedByDefault, rule: NO_RULE, length: 0 };
    }
    records.default.raise(false);
    let (number, id) = match best {
        Some((place, count)) => {
            let rule = &table.rules[place];
            (matching::mismatch_event(rule, count), rule.id)
        }
        None => (event::LINK_MISMATCH, NO_RULE),
    };
    let length = event::write(number, id, arrival.frame, &arrival.layers, space);
    Answer { verdict: Verdict::BlockedByDefault, rule: NO_RULE, length }
}

#[derive(Clone, Copy, PartialEq, Eq)]
pub enum Segment {
    Open,
    Carry,
    End,
    Reset,
}

/// The kind of a segment, by the four flags that tracking looks at; none where they are wrong.
pub fn segment(flags: u8) -> Option<Segment> {
    const SYN_ACK: u8 = SYN | ACK;
    const RST_ACK: u8 = RST | ACK;
    const FIN_ACK: u8 = FIN | ACK;
    match flags & (FIN | SYN | RST | ACK) {
        SYN | SYN_ACK => Some(Segment::Open),
        RST | RST_ACK => Some(Segment::Reset),
        FIN_ACK => Some(Segment::End),
        ACK => Some(Segment::Carry),
        _ => None,
    }
}

/// Wrong flags come before the conversation is looked for, so that 01's table speaks of the four kinds alone.
fn track(rule: &Rule, records: &mut Records, place: usize, arrival: &Arrival) -> Verdict {
    let (Some(ip), Some(tcp)) = (&arrival.layers.ip, &arrival.layers.transport) else {
        unreachable!("a rule with tracking is of kind TCP, so a frame it matches shows both layers");
    };
    let Some(segment) = segment(tcp.flags) else {
        return Verdict::WrongFlags;
    };
    let quadruple = Quadruple::new(ip.addresses(), tcp.sport, tcp.dport);
    match records.find(place, arrival.socket, quadruple) {
        None if segment != Segment::Open => Verdict::NoSuchConversation,
        None => begin(rule, records, place, arrival.socket, quadruple),
        Some(slot) => proceed(records, place, slot, segment),
    }
}

/// An open segment of a conversation that is not held. A socket at its number gets no place, though one is free.
fn begin(rule: &Rule, records: &mut Records, place: usize, socket: u8, quadruple: Quadruple) -> Verdict {
    let at = usize::from(socket);
    if records.held_by(place)[at] >= rule.numbers[at] {
        return Verdict::NoFreePlace;
    }
    let Some(slot) = records.first_free(place, rule.places) else {
        return Verdict::NoFreePlace;
    };
    records.hold(place, slot, OPENING, socket, Conversation { quadruple, age: 0 });
    Verdict::Passed
}

/// The rows of 01's table for a conversation that is held.
fn proceed(records: &mut Records, place: usize, slot: usize, segment: Segment) -> Verdict {
    let held = &mut records.held[place][slot];
    match (*held, segment) {
        (OPENING, Segment::Open) | (RUNNING | CLOSING, Segment::Carry) | (CLOSING, Segment::End) => {}
        (OPENING, Segment::Carry) => *held = RUNNING,
        (OPENING | RUNNING, Segment::End) => *held = CLOSING,
        (_, Segment::Reset) => {
            records.free(place, slot);
            return Verdict::Passed;
        }
        _ => return Verdict::KindNotAllowed,
    }
    records.conversations[place][slot].age = 0;
    Verdict::Passed
}
