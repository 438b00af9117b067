//! What a generated stream has reached, by name and how often.

mod bundles;
mod ipv6;
mod sockets;

pub use sockets::{before_9, BEFORE_9};

use std::collections::BTreeMap;

use crate::answer::{Answer, Refusal, Verdict, NO_RULE};
use crate::dispatch::Bundle;
use crate::faults::{BadTable, RECORD_FAULTS};
use crate::layers::{self, be16, be32, Ip, Kind, Layers, ACK, ETHER_IPV4, ETHER_IPV6, ETHER_TAG, FIN, RST, SYN};
use crate::matching::{matching_layers, ALL_LAYERS};
use crate::modem::Wish;
use crate::records::{Quadruple, Records, FREE, HIGHEST_LEVEL};
use crate::setting;
use crate::table::{set, Rule, Table, CAN_BE_AT_FAULT, PLACES, RULES, SOCKETS};
use crate::terminal::Sharing;

pub const HELD_NAMES: [&str; 4] = ["none", "opening", "running", "closing"];

const NAMES: [&str; 66] = [
    "event-51",
    "event-52",
    "event-54",
    "event-55",
    "event-56",
    "event-61",
    "event-63",
    "event-64",
    "event-77",
    "call-check",
    "call-fresh",
    "call-switch",
    "call-layers",
    "call-print",
    "switch-existing",
    "switch-missing",
    "table-zero-rules",
    "state-none-active",
    "default-allow-without-rule",
    "bucket-on-block-rule",
    "bucket-of-size-0",
    "space-0",
    "space-255",
    "space-256",
    "space-512",
    "clock-back",
    "clock-same",
    "clock-far-ahead",
    "clock-0",
    "clock-highest",
    "refill-beyond-64-bits",
    "idle-end",
    "idle-end-of-rule-not-active",
    "level-at-highest",
    "count-near-stop",
    "count-stopped",
    "frame-0-bytes",
    "frame-1-to-13-bytes",
    "frame-14-bytes",
    "frame-tagged-under-18-bytes",
    "frame-1518-bytes",
    "frame-1519-bytes",
    "frame-2048-bytes",
    "link-untagged",
    "link-tagged",
    "link-double-tagged",
    "link-vlan-4095",
    "ip-short",
    "ip-version",
    "ip-few-words",
    "ip-total-below-header",
    "ip-total-beyond-rest",
    "ip-checksum",
    "ip-options",
    "ip-padding",
    "fragment-more",
    "fragment-offset",
    "protocol-other",
    "tcp-short",
    "tcp-offset-low",
    "tcp-offset-beyond",
    "tcp-options",
    "udp-short",
    "udp-length",
    "someip-short",
    "someip-length-low",
];
const LAST_NAMES: [&str; 3] = ["someip-length-high", "someip-left-over", "someip"];

const VERDICTS: [Verdict; 9] = [
    Verdict::Passed,
    Verdict::PassedByDefault,
    Verdict::Blocked,
    Verdict::OverRate,
    Verdict::NoFreePlace,
    Verdict::BlockedByDefault,
    Verdict::WrongFlags,
    Verdict::NoSuchConversation,
    Verdict::KindNotAllowed,
];

pub struct Reach(BTreeMap<String, u64>);

/// One judged call and what came of it.
pub struct Call<'a> {
    pub table: &'a Table,
    pub before: &'a Records,
    pub after: &'a Records,
    pub socket: u8,
    /// The calls behind which a socket other than 0 is still in force.
    pub across: &'a [u8],
    pub reading: u64,
    pub frame: &'a [u8],
    pub space: &'a [u8],
    pub judged: Result<Answer, Refusal>,
}

impl<'a> Call<'a> {
    /// The place of the rule that decides.
    fn decider(&self, answer: Answer) -> Option<usize> {
        self.table.rules().iter().position(|rule| rule.id == answer.rule)
    }

    /// The active rules to the one that decides, and whether it is that.
    fn looked_at(&self, answer: Answer) -> impl Iterator<Item = (&'a Rule, bool)> {
        let (decider, marks) = (self.decider(answer), self.table.states[self.before.state as usize].marks);
        let rules = self.table.rules().iter().enumerate().take(decider.map_or(RULES, |place| place + 1));
        rules.filter(move |(place, _)| marks >> place & 1 != 0).map(move |(place, rule)| (rule, decider == Some(place)))
    }

    /// The records once the time up to the call has gone by.
    fn aged(&self) -> Records {
        let mut aged = self.before.clone();
        let elapsed = aged.elapse(self.reading);
        aged.age(self.table, elapsed);
        aged
    }
}

fn matches(rule: &Rule, socket: u8, layers: &Layers) -> bool {
    matching_layers(rule, socket, layers) == ALL_LAYERS
}

/// The rule with some settings no longer set.
fn without(rule: &Rule, settings: u32) -> Rule {
    Rule { set: rule.set & !settings, ..*rule }
}

/// What tells a conversation from the others of its socket.
fn quadruple(layers: &Layers) -> Option<Quadruple> {
    let (ip, transport) = (layers.ip?, layers.transport?);
    Some(Quadruple::new(ip.addresses(), transport.sport, transport.dport))
}

/// The name of a setting that refusal 4 names.
fn setting_name(setting: u8) -> String {
    format!("setting-{setting}")
}

/// The name of a set of flags on a tracked rule, by how its conversation is held.
pub fn flags_name(held: u8, flags: u8) -> String {
    let letters = [(FIN, 'F'), (SYN, 'S'), (RST, 'R'), (ACK, 'A')];
    let shown = letters.map(|(flag, letter)| if flags & flag != 0 { letter } else { '.' });
    format!("flags-{}-{}", HELD_NAMES[usize::from(held)], String::from_iter(shown))
}

/// The sixteen sets of the four flags that tracking looks at.
pub fn flag_sets() -> impl Iterator<Item = u8> {
    (0..16).map(|set: u8| set & 7 | (set & 8) << 1)
}

impl Reach {
    pub fn new() -> Reach {
        let mut names: Vec<String> = NAMES.iter().chain(&LAST_NAMES).map(|name| name.to_string()).collect();
        names.extend(VERDICTS.map(|verdict| format!("verdict-{}", verdict.number())));
        names.extend([1, 2, 3, 4, 5, 6, 9].map(|refusal| format!("refusal-{refusal}")));
        names.extend(BEFORE_9.map(before_9));
        names.extend([setting::ID, setting::NONE].iter().chain(&CAN_BE_AT_FAULT).map(|number| setting_name(*number)));
        names.extend(BadTable::all().into_iter().map(BadTable::name));
        names.extend(RECORD_FAULTS.map(|fault| format!("record-fault-{fault}")));
        names.extend(Wish::all().into_iter().map(Wish::name));
        names.extend(Bundle::all().into_iter().map(Bundle::name));
        names.extend(Sharing::all().into_iter().map(Sharing::name));
        names.extend((0..4).flat_map(|held| flag_sets().map(move |flags| flags_name(held, flags))));
        Reach::of(names)
    }

    /// These names, none of them reached.
    pub fn of(names: Vec<String>) -> Reach {
        Reach(names.into_iter().map(|name| (name, 0)).collect())
    }

    pub fn hit(&mut self, name: &str) {
        *self.0.get_mut(name).unwrap_or_else(|| panic!("no such name: {name}")) += 1;
    }

    pub fn count(&self, name: &str) -> u64 {
        self.0[name]
    }

    pub fn refused(&mut self, refusal: Refusal) {
        self.hit(&format!("refusal-{}", refusal.number()));
        if let Refusal::BadTable { setting, .. } = refusal {
            self.hit(&setting_name(setting));
        }
    }

    /// Says every name and count; gives how many were not reached.
    pub fn report(&self) -> usize {
        for (name, count) in &self.0 {
            eprintln!("{name} {count}");
        }
        self.missing().len()
    }

    pub fn missing(&self) -> Vec<&str> {
        self.0.iter().filter(|(_, count)| **count == 0).map(|(name, _)| name.as_str()).collect()
    }

    pub fn hit_if(&mut self, name: &str, reached: bool) {
        if reached {
            self.hit(name);
        }
    }

    pub fn judged(&mut self, call: &Call) {
        self.frame_length(call.frame);
        if [0, 255, 256, 512].contains(&call.space.len()) {
            self.hit(&format!("space-{}", call.space.len()));
        }
        let answer = match call.judged {
            Ok(answer) => answer,
            Err(refusal) => return self.refused_call(call, refusal),
        };
        self.hit(&format!("verdict-{}", answer.verdict.number()));
        if answer.length > 0 {
            self.hit(&format!("event-{}", be16(call.space, 0)));
        }
        let layers = layers::read(call.frame).expect("a judged frame has layers");
        self.layers(call.frame, &layers);
        self.table(call, answer);
        self.ipv6(call, answer, &layers);
        self.bundles(call, answer, &layers);
        self.clock(call);
        let aged = call.aged();
        self.records(call, answer, &layers, &aged);
        self.sockets(call, answer, &layers, &aged);
    }

    fn refused_call(&mut self, call: &Call, refusal: Refusal) {
        self.refused(refusal);
        if usize::from(call.socket) >= SOCKETS {
            self.no_socket(call, refusal);
        }
    }

    fn frame_length(&mut self, frame: &[u8]) {
        let tagged = frame.len() >= 14 && be16(frame, 12) == ETHER_TAG;
        match frame.len() {
            0 => self.hit("frame-0-bytes"),
            1..=13 => self.hit("frame-1-to-13-bytes"),
            14..=17 if tagged => self.hit("frame-tagged-under-18-bytes"),
            14 => self.hit("frame-14-bytes"),
            1_518 => self.hit("frame-1518-bytes"),
            1_519 => self.hit("frame-1519-bytes"),
            2_048 => self.hit("frame-2048-bytes"),
            _ => {}
        }
    }

    fn table(&mut self, call: &Call, answer: Answer) {
        let rules = call.table.rules();
        let decider = rules.iter().find(|rule| rule.id == answer.rule);
        self.hit_if("table-zero-rules", rules.is_empty());
        self.hit_if("state-none-active", call.table.states[call.before.state as usize].marks == 0);
        let by_default = answer.verdict == Verdict::PassedByDefault && answer.rule == NO_RULE;
        self.hit_if("default-allow-without-rule", by_default);
        if let Some(rule) = decider.filter(|rule| rule.has(set::RATE)) {
            self.hit_if("bucket-on-block-rule", answer.verdict == Verdict::Blocked);
            self.hit_if("bucket-of-size-0", rule.size == 0);
        }
    }

    fn clock(&mut self, call: &Call) {
        let (last, reading) = (call.before.last, call.reading);
        let elapsed = reading.saturating_sub(last);
        self.hit_if("clock-back", reading < last);
        self.hit_if("clock-same", reading == last);
        self.hit_if("clock-far-ahead", elapsed > 1 << 40);
        self.hit_if("clock-0", reading == 0);
        self.hit_if("clock-highest", reading == u64::MAX);
        let overflows = |place: usize| {
            call.table.rules[place].refill != 0
                && call.before.levels[place] != [0; SOCKETS]
                && u64::from(call.table.rules[place].refill).checked_mul(elapsed).is_none()
        };
        self.hit_if("refill-beyond-64-bits", (0..call.table.rules().len()).any(overflows));
    }

    fn records(&mut self, call: &Call, answer: Answer, layers: &Layers, aged: &Records) {
        let ended = |place: usize| (0..PLACES).any(|slot| aged.held[place][slot] != call.before.held[place][slot]);
        let marks = call.table.states[call.before.state as usize].marks;
        self.hit_if("idle-end", (0..RULES).any(ended));
        self.hit_if("idle-end-of-rule-not-active", (0..RULES).any(|place| ended(place) && marks >> place & 1 == 0));
        self.hit_if("level-at-highest", call.after.levels.iter().flatten().any(|level| *level == HIGHEST_LEVEL));
        let changed = call.after.counts != call.before.counts || call.after.default != call.before.default;
        let near = call.after.counts.iter().any(|count| count.passed.max(count.blocked) > u32::MAX - 4);
        self.hit_if("count-near-stop", changed && near);
        self.hit_if("count-stopped", !changed);
        self.tracking(call, aged, answer, layers);
    }

    /// The flags, and how the conversation was held when tracking looked at them.
    fn tracking(&mut self, call: &Call, aged: &Records, answer: Answer, layers: &Layers) {
        let Some(place) = call.decider(answer) else { return };
        if !call.table.rules[place].has(set::TRACKING) || answer.verdict == Verdict::OverRate {
            return;
        }
        let (Some(quadruple), Some(tcp)) = (quadruple(layers), layers.transport) else { return };
        let held = aged.find(place, call.socket, quadruple).map_or(FREE, |slot| aged.held[place][slot]);
        self.hit(&flags_name(held, tcp.flags & (FIN | SYN | RST | ACK)));
    }

    fn layers(&mut self, frame: &[u8], layers: &Layers) {
        match layers.tag {
            None => self.hit("link-untagged"),
            Some(tag) => {
                self.hit("link-tagged");
                self.hit_if("link-double-tagged", layers.ether == ETHER_TAG);
                self.hit_if("link-vlan-4095", tag.vlan == 4_095);
            }
        }
        if layers.ether != ETHER_IPV4 {
            return;
        }
        let packet = &frame[layers.rest..];
        if layers.ip.is_none() {
            return self.hit(why_no_ip(packet));
        }
        let (header, total) = (4 * usize::from(packet[0] & 15), usize::from(be16(packet, 2)));
        self.hit_if("ip-options", header > 20);
        self.hit_if("ip-padding", total < packet.len());
        let fragment = be16(packet, 6);
        self.hit_if("fragment-more", fragment & 0x2000 != 0);
        self.hit_if("fragment-offset", fragment & 0x1fff != 0);
        if fragment & 0x3fff == 0 {
            self.transport(packet[9], &packet[header..total], layers);
        }
    }

    fn transport(&mut self, protocol: u8, payload: &[u8], layers: &Layers) {
        match protocol {
            6 if payload.len() < 20 => self.hit("tcp-short"),
            6 => match layers.transport {
                None if payload[12] >> 4 < 5 => self.hit("tcp-offset-low"),
                None => self.hit("tcp-offset-beyond"),
                Some(tcp) => self.hit_if("tcp-options", tcp.header > 20),
            },
            17 if payload.len() < 8 => self.hit("udp-short"),
            17 if layers.transport.is_none() => self.hit("udp-length"),
            17 if layers.someip.is_some() => self.hit("someip"),
            17 if payload.len() < 24 => self.hit("someip-short"),
            17 if be32(payload, 12) < 8 => self.hit("someip-length-low"),
            17 if u64::from(be32(payload, 12)) > payload.len() as u64 - 16 => self.hit("someip-length-high"),
            17 => self.hit("someip-left-over"),
            _ => self.hit("protocol-other"),
        }
        debug_assert!(layers.someip.is_none() || layers.transport.is_some_and(|udp| udp.kind == Kind::Udp));
    }
}

/// The first test of IPv4 that a packet under ether type 0x0800 fails.
fn why_no_ip(packet: &[u8]) -> &'static str {
    if packet.len() < 20 {
        return "ip-short";
    }
    let (words, total) = (usize::from(packet[0] & 15), usize::from(be16(packet, 2)));
    if packet[0] >> 4 != 4 {
        "ip-version"
    } else if words < 5 {
        "ip-few-words"
    } else if 4 * words > total {
        "ip-total-below-header"
    } else if total > packet.len() {
        "ip-total-beyond-rest"
    } else {
        "ip-checksum"
    }
}
