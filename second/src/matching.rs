//! Which rule decides a frame, and which fits best where none does.

use crate::layers::{Ip, Ipv4, Ipv6, Kind, Layers, Message};
use crate::table::{set, Rule, Table};

/// How many layers match from link upward to the first that does not.
pub const ALL_LAYERS: u8 = 4;

pub enum Decider {
    /// The first active matching rule, by its place.
    Rule(usize),
    /// No rule matches. The first active rule with the greatest count of matching layers, and that count.
    Default(Option<(usize, u8)>),
}

#[inline]
pub fn decider(table: &Table, state: u32, socket: u8, layers: &Layers) -> Decider {
    let mut best: Option<(usize, u8)> = None;
    let mut marks = table.states[state as usize].marks;
    while marks != 0 {
        let place = marks.trailing_zeros() as usize;
        marks &= marks - 1;
        let count = matching_layers(&table.rules[place], socket, layers);
        if count == ALL_LAYERS {
            return Decider::Rule(place);
        }
        if best.map_or(true, |(_, greatest)| count > greatest) {
            best = Some((place, count));
        }
    }
    Decider::Default(best)
}

/// Of a frame that came in by this socket.
#[inline]
pub fn matching_layers(rule: &Rule, socket: u8, layers: &Layers) -> u8 {
    if rule.has(set::LINK) && !link_matches(rule, socket, layers) {
        0
    } else if rule.has(set::IP) && !ip_matches(rule, layers) {
        1
    } else if rule.has(set::TRANSPORT) && !transport_matches(rule, layers) {
        2
    } else if rule.has(set::SOMEIP) && !someip_matches(rule, layers) {
        3
    } else {
        ALL_LAYERS
    }
}

#[inline]
fn link_matches(rule: &Rule, socket: u8, layers: &Layers) -> bool {
    let tag_agrees = match layers.tag {
        None => !rule.has(set::TAG),
        Some(tag) => {
            (!rule.has(set::VLAN) || rule.vlan == tag.vlan)
                && (!rule.has(set::PRIORITY) || rule.priority == tag.priority)
        }
    };
    (!rule.has(set::ETHER) || rule.ether == layers.ether)
        && (!rule.has(set::DEST_MAC) || rule.dst == layers.dst)
        && (!rule.has(set::SOURCE_MAC) || rule.src == layers.src)
        && (!rule.has(set::SOCKET) || rule.socket == socket)
        && tag_agrees
}

#[inline]
fn ip_matches(rule: &Rule, layers: &Layers) -> bool {
    match &layers.ip {
        Some(Ip::V4(ip)) => !rule.has(set::IPV6) && ipv4_agrees(rule, ip),
        Some(Ip::V6(ip)) => !rule.has(set::IPV4) && ipv6_agrees(rule, ip),
        None => false,
    }
}

#[inline]
fn ipv4_agrees(rule: &Rule, ip: &Ipv4) -> bool {
    (!rule.has(set::SOURCE) || rule.source.holds(ip.source))
        && (!rule.has(set::DESTINATION) || rule.destination.holds(ip.destination))
        && (!rule.has(set::PROTOCOL) || rule.protocol == ip.protocol)
}

/// The protocol is the number after the chain, so where the chain fails its setting agrees with nothing.
#[inline]
fn ipv6_agrees(rule: &Rule, ip: &Ipv6) -> bool {
    (!rule.has(set::SOURCE6) || rule.source6.holds(ip.source))
        && (!rule.has(set::DESTINATION6) || rule.destination6.holds(ip.destination))
        && (!rule.has(set::PROTOCOL6) || ip.payload.is_some_and(|payload| rule.protocol6 == payload.protocol))
}

#[inline]
fn transport_matches(rule: &Rule, layers: &Layers) -> bool {
    let Some(transport) = &layers.transport else { return false };
    (!rule.has(set::KIND) || rule.kind == transport.kind)
        && (!rule.has(set::SOURCE_PORTS) || rule.sports.holds(transport.sport))
        && (!rule.has(set::DEST_PORTS) || rule.dports.holds(transport.dport))
}

/// The settings "agree exactly when they agree for every message" (02, 3/12).
#[inline]
fn someip_matches(rule: &Rule, layers: &Layers) -> bool {
    let Some(someip) = &layers.someip else { return false };
    someip.messages().all(|message| message_agrees(rule, &message))
}

#[inline]
pub fn message_agrees(rule: &Rule, message: &Message) -> bool {
    (!rule.has(set::SERVICE) || rule.service == message.service)
        && (!rule.has(set::METHOD) || rule.method == message.method)
        && (!rule.has(set::VERSION) || rule.version == message.version)
        && (!rule.has(set::MESSAGE) || rule.message == message.message)
        && (!rule.has(set::CODE) || rule.code == message.code)
}

/// The event of a rule's first layer that does not match; a rule at fault there has a kind where ports are set.
pub fn mismatch_event(rule: &Rule, count: u8) -> u16 {
    match count {
        0 => crate::event::LINK_MISMATCH,
        1 if rule.has(set::IPV6) => crate::event::IPV6_MISMATCH,
        1 => crate::event::IPV4_MISMATCH,
        2 if rule.kind == Kind::Tcp => crate::event::TCP_MISMATCH,
        2 => crate::event::UDP_MISMATCH,
        _ => crate::event::SOMEIP_MISMATCH,
    }
}
