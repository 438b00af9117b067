//! Frames aimed at a rule, and those that miss it by little.

use super::*;

/// The range of a bad table may have its low end above its high.
fn port_in(range: Range, random: &mut Random) -> u16 {
    match random.below(3) {
        0 => range.low,
        1 => range.high,
        _ => random.between(range.low.min(range.high).into(), range.low.max(range.high).into()) as u16,
    }
}

/// An address that agrees with the prefix, its other bits as they like.
fn address_in(prefix: Prefix, other: u32) -> u32 {
    let beyond = u32::MAX.checked_shr(prefix.length.into()).unwrap_or(0);
    prefix.address & !beyond | other & beyond
}

fn address6_in(prefix: Prefix6, other: u128) -> u128 {
    let beyond = u128::MAX.checked_shr(prefix.length.into()).unwrap_or(0);
    prefix.address & !beyond | other & beyond
}

/// A frame that this rule matches, if any frame can.
pub fn aim(rule: &Rule, random: &mut Random) -> Draft {
    let mut draft = draw_frame(random);
    aim_link(rule, &mut draft, random);
    aim_ip(rule, &mut draft, random);
    aim_transport(rule, &mut draft, random);
    draft
}

fn aim_ip(rule: &Rule, draft: &mut Draft, random: &mut Random) {
    if rule.has(set::IPV6) {
        draft.carry(Packet::V6);
    } else if rule.has(set::IPV4) {
        draft.carry(Packet::V4);
    } else if rule.has(set::TRANSPORT | set::SOMEIP) {
        draft.carry(random.pick(&[Packet::V4, Packet::V4, Packet::V6]));
    }
    if rule.has(set::ETHER) {
        draft.ether = rule.ether;
        draft.packet = match rule.ether {
            ETHER_IPV4 => Packet::V4,
            ETHER_IPV6 => Packet::V6,
            _ => Packet::None,
        };
    }
    aim_ipv4(rule, draft);
    aim_ipv6(rule, draft);
}

fn aim_ipv4(rule: &Rule, draft: &mut Draft) {
    if rule.has(set::SOURCE) {
        draft.source = address_in(rule.source, draft.source);
    }
    if rule.has(set::DESTINATION) {
        draft.destination = address_in(rule.destination, draft.destination);
    }
    if rule.has(set::PROTOCOL) {
        draft.kind = if rule.protocol == 6 { Kind::Tcp } else { Kind::Udp };
        draft.protocol = Some(rule.protocol);
    }
}

fn aim_ipv6(rule: &Rule, draft: &mut Draft) {
    if rule.has(set::SOURCE6) {
        draft.source6 = address6_in(rule.source6, draft.source6);
    }
    if rule.has(set::DESTINATION6) {
        draft.destination6 = address6_in(rule.destination6, draft.destination6);
    }
    if rule.has(set::PROTOCOL6) {
        draft.kind = if rule.protocol6 == 6 { Kind::Tcp } else { Kind::Udp };
        draft.protocol = Some(rule.protocol6);
    }
}

fn aim_link(rule: &Rule, draft: &mut Draft, random: &mut Random) {
    if rule.has(set::DEST_MAC) {
        draft.dst = rule.dst;
    }
    if rule.has(set::SOURCE_MAC) {
        draft.src = rule.src;
    }
    if rule.has(set::TAG) {
        let word = random.next() as u16;
        let priority = if rule.has(set::PRIORITY) { u16::from(rule.priority) << 13 } else { word & 0xe000 };
        let vlan = if rule.has(set::VLAN) { rule.vlan } else { word & 0x0fff };
        draft.tags = vec![priority | word & 0x1000 | vlan];
    }
    // A second tag is only an ether type, so it hides the layers above.
    if rule.has(!set::LINK) {
        draft.tags.truncate(1);
    }
}

fn aim_transport(rule: &Rule, draft: &mut Draft, random: &mut Random) {
    if rule.has(set::KIND) {
        draft.kind = rule.kind;
        draft.protocol = if rule.has(set::PROTOCOL | set::PROTOCOL6) { draft.protocol } else { None };
    }
    if rule.has(set::SOURCE_PORTS) {
        draft.sport = port_in(rule.sports, random);
    }
    if rule.has(set::DEST_PORTS) {
        draft.dport = port_in(rule.dports, random);
    }
    if !rule.has(set::SOMEIP) {
        return;
    }
    if !rule.has(set::KIND) {
        draft.kind = Kind::Udp;
    }
    if draft.messages.is_empty() {
        draft.messages.push(draw_message(draft.payload, random));
    }
    for message in &mut draft.messages {
        aim_message(rule, message);
    }
}

pub fn aim_message(rule: &Rule, message: &mut Message) {
    *message = Message {
        service: if rule.has(set::SERVICE) { rule.service } else { message.service },
        method: if rule.has(set::METHOD) { rule.method } else { message.method },
        version: if rule.has(set::VERSION) { rule.version } else { message.version },
        message: if rule.has(set::MESSAGE) { rule.message } else { message.message },
        code: if rule.has(set::CODE) { rule.code } else { message.code },
        payload: message.payload,
    };
}

/// Alters one thing of an aimed frame, mostly by as little as can be.
pub fn near_miss(rule: &Rule, draft: &mut Draft, random: &mut Random) {
    match random.below(14) {
        // What an IPv6 packet has and another has not.
        4..=6 if draft.packet == Packet::V6 => near_miss6(rule, draft, random),
        0 => draft.sport = rule.sports.high.wrapping_add(1),
        1 => draft.sport = rule.sports.low.wrapping_sub(1),
        2 => draft.dport = rule.dports.high.wrapping_add(1),
        3 => draft.dport = rule.dports.low.wrapping_sub(1),
        // The last bit that a prefix compares, or the first that it does not.
        4 => draft.source ^= near_bit(rule.source, random),
        5 => draft.destination ^= near_bit(rule.destination, random),
        6 => draft.protocol = Some(random.pick(&[1, 6, 17])),
        7 => draft.kind = if draft.kind == Kind::Tcp { Kind::Udp } else { Kind::Tcp },
        8 => draft.ether = random.pick(&ETHERS),
        9 => draft.tags.clear(),
        10 => draft.tags = draft.tags.iter().map(|tag| tag ^ 1 << random.below(16)).collect(),
        11 => draft.dst ^= 1 << random.below(48),
        12 => draft.src ^= 1 << random.below(48),
        _ => near_message(draft, random),
    }
}

fn near_miss6(rule: &Rule, draft: &mut Draft, random: &mut Random) {
    match random.below(6) {
        0 => draft.source6 ^= near_bit6(rule.source6, random),
        1 => draft.destination6 ^= near_bit6(rule.destination6, random),
        2 => draft.protocol = Some(random.pick(&[6, 17, 58, HOP_BY_HOP, ROUTING, FRAGMENT, DEST_OPTIONS])),
        3 => draft.chain = (0..random.between(8, 9)).map(|_| draw_extension(random)).collect(),
        4 => draft.chain.push(Extension { number: FRAGMENT, units: 0 }),
        _ => draft.carry(Packet::V4),
    }
}

fn near_bit6(prefix: Prefix6, random: &mut Random) -> u128 {
    let bit = (128 - u32::from(prefix.length.min(128))).saturating_sub(random.below(2) as u32);
    1 << bit.min(127)
}

fn near_bit(prefix: Prefix, random: &mut Random) -> u32 {
    let bit = (32 - u32::from(prefix.length.min(32))).saturating_sub(random.below(2) as u32);
    1 << bit.min(31)
}

/// In one message, be it the first or another.
fn near_message(draft: &mut Draft, random: &mut Random) {
    let count = draft.messages.len() as u64;
    if count > 0 {
        let message = &mut draft.messages[random.below(count) as usize];
        message.turn(random.pick(&SOMEIPS), random);
    }
}
