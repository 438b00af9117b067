//! What a stream has reached of IPv6: the header, the chain behind it, the settings of rules, events and conversations.

use super::*;
use crate::draft::{Damage, Packet};
use crate::layers::{is_extension, Addresses, FRAGMENT, IPV6_HEADER, LONGEST_CHAIN};
use crate::modem::{Compared, Half, Held, Meeting, Protocol, Wish, ICMPV6, LENGTHS};
use crate::table::Action;

/// The headers that lie one behind the other, however many, and what ends them.
struct Chain {
    numbers: Vec<u8>,
    bytes: usize,
    end: End,
}

enum End {
    /// This number, which is no extension header's.
    Number(u8),
    /// So many bytes are left for a header that says it has so many; 8 where it cannot even say that.
    Cut { left: usize, length: usize },
}

impl Chain {
    fn of(first: u8, payload: &[u8]) -> Chain {
        let (mut number, mut numbers, mut bytes) = (first, vec![], 0);
        while is_extension(number) {
            let left = &payload[bytes..];
            let length = 8 + 8 * usize::from(*left.get(1).unwrap_or(&0));
            if left.len() < length {
                return Chain { numbers, bytes, end: End::Cut { left: left.len(), length } };
            }
            numbers.push(number);
            number = left[0];
            bytes += length;
        }
        Chain { numbers, bytes, end: End::Number(number) }
    }

    fn is_followed(&self) -> bool {
        self.numbers.len() <= LONGEST_CHAIN && matches!(self.end, End::Number(number) if number != FRAGMENT)
    }
}

impl Reach {
    fn granted(&mut self, wish: Wish) {
        self.hit(&wish.name());
    }

    fn granted_if(&mut self, wish: Wish, granted: bool) {
        self.hit_if(&wish.name(), granted);
    }

    pub(super) fn ipv6(&mut self, call: &Call, answer: Answer, layers: &Layers) {
        if layers.ether == ETHER_IPV6 {
            self.ipv6_header(&call.frame[layers.rest..], layers);
        }
        if answer.length > 0 {
            self.event(be16(call.space, 0), layers);
        }
        for (rule, decides) in call.looked_at(answer) {
            self.ip_settings(rule, call, layers, decides);
        }
        if let Some(place) = call.decider(answer) {
            let settings6 = call.table.rules[place].has(set::IPV6);
            self.granted_if(Wish::Decides(Action::Allow), settings6 && answer.verdict == Verdict::Passed);
            self.granted_if(Wish::Decides(Action::Block), settings6 && answer.verdict == Verdict::Blocked);
            let full = answer.verdict == Verdict::NoFreePlace && matches!(layers.ip, Some(Ip::V6(_)));
            self.granted_if(Wish::NoFreePlace, full);
            self.held_together(call.after, place);
        }
    }

    fn event(&mut self, number: u16, layers: &Layers) {
        let packet = match layers.ip {
            Some(Ip::V4(_)) => Packet::V4,
            Some(Ip::V6(_)) => Packet::V6,
            None => Packet::None,
        };
        match number {
            51 | 52 => self.granted(Wish::Event(number, packet)),
            56 => self.granted_if(Wish::OtherMessage, packet == Packet::V6),
            _ => {}
        }
    }

    fn ipv6_header(&mut self, packet: &[u8], layers: &Layers) {
        let damaged = Wish::Damaged;
        self.granted_if(damaged(Damage::Rest39), packet.len() == IPV6_HEADER - 1);
        if packet.len() < IPV6_HEADER {
            return;
        }
        if packet[0] >> 4 != 6 {
            return self.granted(damaged(Damage::Version6));
        }
        let (end, length) = (IPV6_HEADER + usize::from(be16(packet, 4)), packet.len());
        self.granted_if(damaged(Damage::LengthOneMore), end == length + 1);
        if end > length {
            return;
        }
        self.granted_if(damaged(Damage::LengthOneLess), end + 1 == length);
        self.granted_if(damaged(Damage::LengthZero), end == IPV6_HEADER && end < length);
        self.granted_if(damaged(Damage::HeaderAlone), end == IPV6_HEADER && end == length);
        let payload = &packet[IPV6_HEADER..end];
        let chain = Chain::of(packet[6], payload);
        self.chain(&chain, layers);
        if chain.is_followed() {
            self.transport6(&chain, &payload[chain.bytes..], layers);
        }
    }

    fn chain(&mut self, chain: &Chain, layers: &Layers) {
        let headers = chain.numbers.len();
        match chain.end {
            End::Number(FRAGMENT) => match headers {
                0 => self.granted(Wish::FragmentFirst),
                1..LONGEST_CHAIN => self.granted(Wish::FragmentBetween),
                LONGEST_CHAIN => self.granted(Wish::FragmentAfterEight),
                _ => {}
            },
            End::Number(_) => {
                self.granted_if(Wish::Chain(headers), headers <= LONGEST_CHAIN + 2);
                if let Some(transport) = layers.transport.filter(|_| headers == LONGEST_CHAIN) {
                    self.granted(Wish::EightThen(transport.kind));
                }
            }
            End::Cut { left, length } if headers < LONGEST_CHAIN => {
                self.granted_if(Wish::Damaged(Damage::CutHeader), left < 8);
                self.granted_if(Wish::Damaged(Damage::CutLength), left >= 8);
                self.granted_if(Wish::Damaged(Damage::CutUnit), left >= 8 && length == left + 8);
                self.granted_if(Wish::Damaged(Damage::CutByte), length == left + 1 && left < 8);
                self.granted_if(Wish::Damaged(Damage::CutByteOfLonger), length == left + 1 && left >= 8);
            }
            End::Cut { .. } => {}
        }
        if chain.is_followed() {
            for number in [0, 43, 60] {
                self.granted_if(Wish::ChainWith(number), chain.numbers.contains(&number));
            }
        }
    }

    fn transport6(&mut self, chain: &Chain, payload: &[u8], layers: &Layers) {
        let End::Number(number) = chain.end else { return };
        let length = payload.len();
        match number {
            6 => {
                self.granted_if(Wish::Damaged(Damage::TcpNineteen), length == 19);
                let header = if length < 20 { 0 } else { 4 * usize::from(payload[12] >> 4) };
                self.granted_if(Wish::Damaged(Damage::TcpOneBeyond), header == length + 1);
            }
            17 => {
                self.granted_if(Wish::Damaged(Damage::UdpSeven), length == 7);
                let said = if length < 8 { 0 } else { usize::from(be16(payload, 4)) };
                self.granted_if(Wish::Damaged(Damage::UdpOneMore), said == length + 1);
                self.granted_if(Wish::Damaged(Damage::UdpOneLess), said != 0 && said + 1 == length);
                let with_chain = chain.bytes > 0 && said == chain.bytes + length;
                self.granted_if(Wish::Damaged(Damage::UdpWithChain), with_chain);
            }
            ICMPV6 => self.granted(Wish::OtherProtocol),
            _ => {}
        }
        if let Some(transport) = layers.transport {
            self.granted(Wish::Transport(transport.kind));
        }
        self.granted_if(Wish::Message, layers.someip.is_some());
    }

    /// What the IP settings of a rule that is looked at do, where they alone decide whether it matches.
    fn ip_settings(&mut self, rule: &Rule, call: &Call, layers: &Layers, decides: bool) {
        let without = |settings: u32| matches(&without(rule, settings), call.socket, layers);
        match layers.ip {
            Some(Ip::V4(ip)) if without(set::IPV6) => match rule.set & set::IPV6 {
                set::SOURCE6 => self.granted_if(Wish::Meets(Meeting::AnyIpv6), rule.source6.length == 0),
                set::PROTOCOL6 => self.granted_if(Wish::Meets(Meeting::ProtocolIpv6), rule.protocol6 == ip.protocol),
                _ => {}
            },
            Some(Ip::V6(ip)) if rule.has(set::IPV4) && without(set::IPV4) => {
                let number = ip.payload.map(|payload| payload.protocol);
                match rule.set & set::IPV4 {
                    set::SOURCE => self.granted_if(Wish::Meets(Meeting::AnyIpv4), rule.source.length == 0),
                    set::PROTOCOL => self.granted_if(Wish::Meets(Meeting::ProtocolIpv4), number == Some(rule.protocol)),
                    _ => {}
                }
            }
            Some(Ip::V6(ip)) => {
                self.prefix(rule, call.socket, layers, decides, set::SOURCE6);
                self.prefix(rule, call.socket, layers, decides, set::DESTINATION6);
                let (first, followed) = (call.frame[layers.rest + 6], ip.payload.is_some());
                self.protocol(rule, first, followed, decides, without(set::PROTOCOL6));
            }
            _ => {}
        }
    }

    fn prefix(&mut self, rule: &Rule, socket: u8, layers: &Layers, decides: bool, setting: u32) {
        let length = if setting == set::SOURCE6 { rule.source6.length } else { rule.destination6.length };
        if !rule.has(setting) || !LENGTHS.contains(&length) {
            return;
        }
        let would_match = |length: u8| {
            let mut other = *rule;
            let prefix = if setting == set::SOURCE6 { &mut other.source6 } else { &mut other.destination6 };
            prefix.length = length;
            matches(&other, socket, layers)
        };
        if decides {
            self.granted(Wish::Prefix(Compared::Agrees(length)));
            self.granted_if(Wish::Prefix(Compared::NextBit(length)), length < 128 && !would_match(length + 1));
        } else if length > 0 && would_match(length - 1) {
            self.granted(Wish::Prefix(Compared::LastBit(length)));
        }
    }

    /// `first` is the header's own number, `followed` whether one comes after the chain, and `would` whether the rule would decide
    /// without its protocol.
    fn protocol(&mut self, rule: &Rule, first: u8, followed: bool, decides: bool, would: bool) {
        let number = rule.protocol6;
        if !rule.has(set::PROTOCOL6) {
            return;
        }
        if decides {
            let agrees = if first == number { Protocol::Agrees } else { Protocol::AgreesAfterChain };
            self.granted(Wish::Protocol(agrees));
        } else if would {
            if is_extension(number) || number == FRAGMENT {
                self.granted_if(Wish::Protocol(Protocol::Is(number)), first == number);
            } else {
                self.granted(Wish::Protocol(if followed { Protocol::Disagrees } else { Protocol::FailedChain }));
            }
        }
    }

    /// On one socket, since on two sockets even one quadruple is two conversations.
    fn held_together(&mut self, records: &Records, place: usize) {
        for socket in [0, 1] {
            let of = |slot: &usize| records.held[place][*slot] != FREE && records.sockets[place][*slot] == socket;
            let slots = (0..PLACES).filter(of);
            let held: Vec<Quadruple> = slots.map(|slot| records.conversations[place][slot].quadruple).collect();
            for (at, one) in held.iter().enumerate() {
                for other in &held[at + 1..] {
                    self.two_held(one, other);
                }
            }
        }
    }

    fn two_held(&mut self, one: &Quadruple, other: &Quadruple) {
        use Addresses::{V4, V6};
        let same_ports = one.ports == other.ports;
        match (one.addresses, other.addresses) {
            (V4 { source, destination }, V6 { source: source6, destination: destination6 })
            | (V6 { source: source6, destination: destination6 }, V4 { source, destination }) => {
                self.granted(Wish::Held(Held::BothKinds));
                let low = [source, destination].map(|bits| u128::from(bits).to_be_bytes());
                let alike = same_ports && low == [source6, destination6];
                let zero = source | destination == 0;
                self.granted_if(Wish::Held(Held::AlikeButKind), alike && !zero);
                self.granted_if(Wish::Held(Held::ZeroButKind), alike && zero);
            }
            (V6 { source, destination }, V6 { source: source6, destination: destination6 }) if same_ports => {
                let differing = [(source, source6), (destination, destination6)]
                    .map(|(one, other)| u128::from_be_bytes(one) ^ u128::from_be_bytes(other));
                if differing[0].count_ones() + differing[1].count_ones() == 1 {
                    let half = Half { source: differing[0] != 0, high: (differing[0] | differing[1]) >> 64 != 0 };
                    self.granted(Wish::Held(Held::OneBitApart(half)));
                }
            }
            _ => {}
        }
    }
}
