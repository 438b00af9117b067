//! What a stream has reached of datagrams with several messages: how the payload cuts, which messages agree, and what the event shows.

use super::*;
use crate::dispatch::{Agreement, Bundle, AGREEMENTS};
use crate::draft::{At, Broken, Packet, BROKEN};
use crate::layers::{Message, Transport, IPV6_HEADER, MESSAGE_HEADER};
use crate::matching::message_agrees;
use crate::table::Action;
use crate::world::SOMEIPS;

/// A datagram's whole messages, one behind the other, and what is left over.
struct Datagram<'a> {
    messages: Vec<&'a [u8]>,
    left: &'a [u8],
    padding: &'a [u8],
}

/// The bytes of the message that these start with, if it is whole and its Length at least this; and what follows it.
fn first_message(bytes: &[u8], least: u64) -> Option<(&[u8], &[u8])> {
    let length = u64::from(be32(bytes.get(..8)?, 4));
    if length < least || 8 + length > bytes.len() as u64 {
        return None;
    }
    Some(bytes.split_at(8 + length as usize))
}

/// The messages, each with at least this Length, and what is left over.
fn cut(bytes: &[u8], least: u64) -> (Vec<&[u8]>, &[u8]) {
    let (mut messages, mut left) = (vec![], bytes);
    while let Some((message, behind)) = first_message(left, least) {
        messages.push(message);
        left = behind;
    }
    (messages, left)
}

impl<'a> Datagram<'a> {
    fn of(frame: &'a [u8], udp: &Transport) -> Datagram<'a> {
        let (payload, padding) = frame[udp.start..].split_at(usize::from(be16(frame, udp.start + 4)));
        let (messages, left) = cut(&payload[8..], 8);
        Datagram { messages, left, padding }
    }

    /// Whether something is left over in this way.
    fn is_broken(&self, broken: Broken) -> bool {
        let left = self.left.len();
        let length = if left < 8 { 0 } else { u64::from(be32(self.left, 4)) };
        let whole_header = left >= MESSAGE_HEADER;
        let too_large = whole_header && 8 + length > left as u64;
        let before: usize = self.messages.iter().map(|message| message.len()).sum();
        match broken {
            Broken::One => left == 1,
            Broken::Few => (2..15).contains(&left),
            Broken::Fifteen => left == 15,
            Broken::Low => whole_header && length < 8,
            Broken::LowCuts => left >= 8 && length < 8 && cut(self.left, 0).1.is_empty(),
            Broken::OneMore => whole_header && 8 + length == left as u64 + 1,
            Broken::High => too_large && 8 + length > left as u64 + 1,
            Broken::Wraps => too_large && before as u64 + 8 + length >= 1 << 32,
            Broken::Wide => too_large && (8..left as u64 - 7).contains(&(length & 0xffff)),
            Broken::IntoPadding => too_large && 8 + length == (left + self.padding.len()) as u64,
        }
    }
}

fn read(message: &[u8]) -> Message {
    let (service, method) = (be16(message, 0), be16(message, 2));
    Message { service, method, version: message[12], message: message[14], code: message[15] }
}

/// Whether two messages are alike in what this setting asks for.
fn alike(setting: u32, one: &Message, other: &Message) -> bool {
    match setting {
        set::SERVICE => one.service == other.service,
        set::METHOD => one.method == other.method,
        set::VERSION => one.version == other.version,
        set::MESSAGE => one.message == other.message,
        _ => one.code == other.code,
    }
}

/// The choice's number, by the settings that a rule asks for.
fn choice(rule: &Rule) -> usize {
    SOMEIPS.iter().enumerate().map(|(at, setting)| usize::from(rule.has(*setting)) << at).sum()
}

impl Reach {
    fn shown(&mut self, bundle: Bundle) {
        self.hit(&bundle.name());
    }

    fn shown_if(&mut self, bundle: Bundle, shown: bool) {
        if shown {
            self.shown(bundle);
        }
    }

    pub(super) fn bundles(&mut self, call: &Call, answer: Answer, layers: &Layers) {
        let mismatch = answer.length > 0 && be16(call.space, 0) == 56;
        let id = if mismatch { be16(call.space, 2) } else { answer.rule };
        let rule = call.table.rules().iter().find(|rule| rule.id == id);
        let zeros = mismatch && call.space[4..20] == [0; 16];
        self.shown_if(Bundle::ZerosOnNoIp, zeros && layers.ip.is_none());
        let over = if matches!(layers.ip, Some(Ip::V6(_))) { Packet::V6 } else { Packet::V4 };
        match layers.transport {
            Some(udp) if udp.kind == Kind::Udp => {
                let datagram = Datagram::of(call.frame, &udp);
                assert_eq!(layers.someip.is_some(), !datagram.messages.is_empty() && datagram.left.is_empty());
                self.shown_if(Bundle::ZerosOnUdp, zeros);
                self.payload(&datagram, over, mismatch);
                if let Some(rule) = rule {
                    self.under_rule(&datagram, over, rule, answer, layers);
                }
                self.in_part(call, answer, layers);
            }
            Some(_) => self.shown_if(Bundle::ZerosOnTcp, zeros),
            None => {}
        }
    }

    /// How the payload cuts; where it does not, only if that makes the event.
    fn payload(&mut self, datagram: &Datagram, over: Packet, mismatch: bool) {
        let count = datagram.messages.len();
        if !datagram.left.is_empty() {
            let at = if count == 0 { At::First } else { At::Later };
            for broken in BROKEN.into_iter().filter(|broken| mismatch && datagram.is_broken(*broken)) {
                self.shown(Bundle::Broken(broken, at, over));
            }
            return;
        }
        let most = Bundle::most(over);
        let (least, most) = if (4..most).contains(&count) { (4, most - 1) } else { (count, count) };
        self.shown(Bundle::Count { least, most, over });
        let unlike = datagram.messages.iter().any(|message| message.len() != datagram.messages[0].len());
        self.shown_if(Bundle::UnlikeLengths, unlike);
        self.shown_if(Bundle::FirstShown, mismatch && count > 1);
    }

    /// Under the rule that decides, or that the event names.
    fn under_rule(&mut self, datagram: &Datagram, over: Packet, rule: &Rule, answer: Answer, layers: &Layers) {
        let several = datagram.messages.len() > 1 && layers.someip.is_some();
        if !rule.has(set::SOMEIP) {
            let udp = rule.has(set::KIND);
            self.shown_if(Bundle::NotAsked { cuts: true }, udp && several);
            self.shown_if(Bundle::NotAsked { cuts: false }, udp && layers.someip.is_none());
            return;
        }
        if layers.someip.is_none() {
            return;
        }
        let messages: Vec<Message> = datagram.messages.iter().map(|message| read(message)).collect();
        if several {
            self.agreement(&messages, over, rule);
        }
        if answer.rule == rule.id {
            self.decided(datagram, over, rule, answer, layers);
        }
    }

    fn agreement(&mut self, messages: &[Message], over: Packet, rule: &Rule) {
        let count = messages.len();
        let agrees: Vec<bool> = messages.iter().map(|message| message_agrees(rule, message)).collect();
        for agreement in AGREEMENTS.into_iter().filter(|_| count >= Agreement::LEAST) {
            let so = (0..count).all(|at| agrees[at] == agreement.has(at, count));
            self.shown_if(Bundle::Agreement(agreement, over), so);
            let last_of_most = agreement == Agreement::AllButLast && count == Bundle::most(over);
            self.shown_if(Bundle::LastOfMost(over), so && last_of_most);
        }
        let unlike = |setting: &u32| messages.iter().any(|message| !alike(*setting, message, &messages[0]));
        if agrees.iter().all(|agrees| *agrees) {
            let others_differ = SOMEIPS.iter().filter(|setting| !rule.has(**setting)).all(unlike);
            return self.shown_if(Bundle::Agrees(choice(rule)), others_differ);
        }
        let disagreeing: Vec<usize> = (0..count).filter(|at| !agrees[*at]).collect();
        let one_later = disagreeing.len() == 1 && disagreeing[0] > 0;
        // Without one of its settings, the rule would agree with all.
        let in_this = |setting: &u32| messages.iter().all(|message| message_agrees(&without(rule, *setting), message));
        for setting in SOMEIPS.into_iter().filter(|setting| one_later && rule.has(*setting) && in_this(setting)) {
            self.shown(Bundle::Disagrees(choice(rule)));
            self.shown_if(Bundle::DisagreesIn(setting), rule.set & set::SOMEIP == set::SOMEIP);
        }
    }

    /// By a rule with settings of SOME/IP, which all messages agree with.
    fn decided(&mut self, datagram: &Datagram, over: Packet, rule: &Rule, answer: Answer, layers: &Layers) {
        let count = datagram.messages.len();
        self.shown_if(Bundle::WithoutKind, !rule.has(set::KIND));
        self.shown_if(Bundle::BeforePadding(over), !datagram.padding.is_empty());
        let (beyond, left) = cut(datagram.padding, 8);
        let unwanted = beyond.iter().any(|message| !message_agrees(rule, &read(message)));
        self.shown_if(Bundle::MessageInPadding(over), unwanted && left.is_empty());
        if count < 2 {
            return;
        }
        let behind_chain = layers.transport.is_some_and(|udp| udp.start > layers.rest + IPV6_HEADER);
        self.shown_if(Bundle::BehindChain, over == Packet::V6 && behind_chain);
        let within = answer.verdict == Verdict::Passed && rule.has(set::RATE) && count > usize::from(rule.size);
        self.shown_if(Bundle::WithinRate, within);
        self.shown_if(Bundle::OverRate, answer.verdict == Verdict::OverRate);
        self.shown_if(Bundle::Blocked, answer.verdict == Verdict::Blocked);
    }

    /// One message that an active rule would allow, and one that another would block.
    fn in_part(&mut self, call: &Call, answer: Answer, layers: &Layers) {
        let Some(someip) = layers.someip.filter(|_| answer.rule == NO_RULE) else { return };
        let marks = call.table.states[call.before.state as usize].marks;
        let fails = |rule: &Rule| matching_layers(rule, call.socket, layers) == ALL_LAYERS - 1;
        let rules = call.table.rules().iter().enumerate();
        let failing: Vec<&Rule> =
            rules.filter(|(at, rule)| marks >> at & 1 != 0 && fails(rule)).map(|(_, rule)| rule).collect();
        let some = |action: Action| {
            let mut rules = failing.iter().filter(|rule| rule.action == action);
            rules.any(|rule| someip.messages().any(|message| message_agrees(rule, &message)))
        };
        let default = call.table.states[call.before.state as usize].default;
        self.shown_if(Bundle::AllowedAndBlocked { default }, some(Action::Allow) && some(Action::Block));
    }
}
