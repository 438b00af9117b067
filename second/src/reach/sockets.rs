//! What a stream has reached of two sockets: the refusal, the setting, the buckets, the numbers, and conversations of both.

use super::*;
use crate::answer::Refusal;
use crate::draft::Packet;
use crate::judge::{judge, segment, Segment};
use crate::layers::Addresses;
use crate::records::OPENING;
use crate::table::Rule;
use crate::terminal::{Room, Sharing};

/// What comes before refusal 9.
pub const BEFORE_9: [Refusal; 2] = [Refusal::NO_RULE_AT_FAULT, Refusal::BadRecord];

/// The name of a refusal where the socket is one that there is not.
pub fn before_9(refusal: Refusal) -> String {
    format!("refusal-{}-before-9", refusal.number())
}

/// What the same call on the other socket answers, with its event, and what records it leaves.
fn on_other(call: &Call) -> (Answer, Vec<u8>, Records) {
    let (mut records, mut space) = (call.before.clone(), vec![0; call.space.len()]);
    let judged = judge(call.table, &mut records, 1 - call.socket, call.frame, call.reading, &mut space);
    let answer = judged.expect("judged as on this socket");
    space.truncate(answer.length);
    (answer, space, records)
}

impl Reach {
    fn shared(&mut self, sharing: Sharing) {
        self.hit(&sharing.name());
    }

    fn shared_if(&mut self, sharing: Sharing, shared: bool) {
        self.hit_if(&sharing.name(), shared);
    }

    /// Of a call on a socket that there is not.
    pub(super) fn no_socket(&mut self, call: &Call, refusal: Refusal) {
        if refusal != Refusal::NoSuchSocket {
            return self.hit(&before_9(refusal));
        }
        let small = (call.space.len() < crate::event::SPACE).then_some(Refusal::SmallSpace);
        self.shared(Sharing::Refused(layers::read(call.frame).err().or(small)));
    }

    pub(super) fn sockets(&mut self, call: &Call, answer: Answer, layers: &Layers, aged: &Records) {
        let (other, event, records) = on_other(call);
        let told = (answer, &call.space[..answer.length], call.after);
        if told != (other, &event[..], &records) {
            call.across.iter().for_each(|letter| self.shared(Sharing::Stays(*letter)));
        }
        self.socket_settings(call, answer, layers);
        self.elapsed(call, aged);
        let Some(place) = call.decider(answer) else { return };
        let rule = &call.table.rules[place];
        if rule.has(set::RATE) {
            self.rates(call, answer, rule, aged.levels[place][usize::from(1 - call.socket)]);
        }
        if rule.has(set::TRACKING) && answer.verdict != Verdict::OverRate {
            self.numbers(call, answer, layers, aged, place);
            self.both_hold(call, answer, layers, aged, place, other.verdict);
        }
    }

    fn socket_settings(&mut self, call: &Call, answer: Answer, layers: &Layers) {
        for (rule, decides) in call.looked_at(answer).filter(|(rule, _)| rule.has(set::SOCKET)) {
            let by_socket = !decides && matches(&without(rule, set::SOCKET), call.socket, layers);
            self.shared_if(Sharing::Agrees(rule.socket), decides);
            self.shared_if(Sharing::Disagrees(rule.socket), by_socket);
        }
        if answer.length > 0 && be16(call.space, 0) == 77 {
            let named = call.table.rules().iter().find(|rule| rule.id == be16(call.space, 2));
            let by_socket = |rule: &&Rule| matching_layers(&without(rule, set::SOCKET), call.socket, layers) > 0;
            if let Some(rule) = named.filter(by_socket) {
                self.shared(Sharing::LinkEvent(rule.socket));
            }
        }
    }

    /// What the time has done before the frame is looked at.
    fn elapsed(&mut self, call: &Call, aged: &Records) {
        let fallen =
            |place: usize| (0..2).all(|at| (1..call.before.levels[place][at]).contains(&aged.levels[place][at]));
        self.shared_if(Sharing::BothDrain, (0..RULES).any(fallen));
        let of_other = |place: usize, slot: usize| {
            let held = [call.before, aged].map(|records| records.held[place][slot] != FREE);
            held == [true, false] && call.before.sockets[place][slot] != call.socket
        };
        let ended = (0..RULES).any(|place| (0..PLACES).any(|slot| of_other(place, slot)));
        self.shared_if(Sharing::OtherEnds(call.socket), ended);
    }

    /// Of a bucket that has this level for the other socket.
    fn rates(&mut self, call: &Call, answer: Answer, rule: &Rule, other: u32) {
        let most = 1_000 * u32::from(rule.size);
        let over = answer.verdict == Verdict::OverRate && other.saturating_add(1_000) <= most;
        self.shared_if(Sharing::OverRate(call.socket), over);
        self.shared_if(Sharing::WithinRate(call.socket), answer.verdict == Verdict::Passed && other > most);
    }

    /// An open segment under a rule that tracks.
    fn numbers(&mut self, call: &Call, answer: Answer, layers: &Layers, aged: &Records, place: usize) {
        let (rule, socket) = (&call.table.rules[place], call.socket);
        if layers.transport.and_then(|tcp| segment(tcp.flags)) != Some(Segment::Open) {
            return;
        }
        let number = rule.numbers[usize::from(socket)];
        let at_number = aged.held_by(place)[usize::from(socket)] >= number;
        if let Some(slot) = quadruple(layers).and_then(|quadruple| aged.find(place, socket, quadruple)) {
            let again = aged.held[place][slot] == OPENING && answer.verdict == Verdict::Passed;
            return self.shared_if(Sharing::OpenAgain(socket), at_number && again);
        }
        self.shared(Sharing::Sum(rule.numbers.iter().sum::<u8>().cmp(&rule.places)));
        if answer.verdict == Verdict::NoFreePlace {
            match (at_number, aged.first_free(place, rule.places).is_some()) {
                (true, true) if number == 0 => self.shared(Sharing::NoPlace(Room::NoNumber, socket)),
                (true, true) => self.shared(Sharing::NoPlace(Room::AtNumberFree, socket)),
                (true, false) => self.shared_if(Sharing::NoPlace(Room::AtNumberFull, socket), number > 0),
                (false, _) => self.shared(Sharing::NoPlace(Room::BelowNumber, socket)),
            }
        }
    }

    /// A segment of a conversation that both sockets hold, or the other alone, which would get this verdict on it.
    fn both_hold(
        &mut self,
        call: &Call,
        answer: Answer,
        layers: &Layers,
        aged: &Records,
        place: usize,
        other: Verdict,
    ) {
        let Some(quadruple) = quadruple(layers) else { return };
        let socket = call.socket;
        let both = |records: &Records| (0..2).all(|socket| records.find(place, socket, quadruple).is_some());
        let packet = if let Addresses::V6 { .. } = quadruple.addresses { Packet::V6 } else { Packet::V4 };
        self.shared_if(Sharing::Twins(packet), both(call.after));
        self.shared_if(Sharing::UnlikeTwins(socket), both(aged) && other != answer.verdict);
        let there = aged.find(place, 1 - socket, quadruple).is_some();
        self.shared_if(Sharing::OtherHolds(socket), there && answer.verdict == Verdict::NoSuchConversation);
    }
}
