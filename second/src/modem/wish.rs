//! What a stream is to show of IPv6, by name, and the frames that show it under the modem's table.

use super::*;
use crate::draft::{ipv6_damages, Damage, Draft, Extension, Packet};
use crate::layers::LONGEST_CHAIN;
use crate::world::aim;

/// In which half of which address two quadruples differ by one bit.
#[derive(Clone, Copy, PartialEq, Eq, Debug)]
pub struct Half {
    pub source: bool,
    pub high: bool,
}

#[derive(Clone, Copy, PartialEq, Eq, Debug)]
pub enum Meeting {
    /// A prefix of length 0 of one kind, which holds every address of its kind, and a frame of the other.
    AnyIpv4,
    AnyIpv6,
    /// A protocol of one kind, and a frame of the other with this number.
    ProtocolIpv4,
    ProtocolIpv6,
}

/// What a protocol setting of IPv6 meets, under a rule that would match without it.
#[derive(Clone, Copy, PartialEq, Eq, Debug)]
pub enum Protocol {
    Agrees,
    AgreesAfterChain,
    Disagrees,
    FailedChain,
    /// The setting is this number, which is the first that the frame shows.
    Is(u8),
}

/// How a prefix of this length agrees, or does not, with the frame that the rule decides or else would decide.
#[derive(Clone, Copy, PartialEq, Eq, Debug)]
pub enum Compared {
    Agrees(u8),
    /// The last bit that it compares differs, and none before it.
    LastBit(u8),
    /// It agrees, though the first bit that it does not compare differs.
    NextBit(u8),
}

/// Conversations held under one rule at a time.
#[derive(Clone, Copy, PartialEq, Eq, Debug)]
pub enum Held {
    BothKinds,
    /// Of either kind and with the same low bits and ports, zero or not.
    AlikeButKind,
    ZeroButKind,
    OneBitApart(Half),
}

/// Something that a stream is to show of IPv6.
#[derive(Clone, Copy, PartialEq, Eq, Debug)]
pub enum Wish {
    /// So many whole headers, then a transport.
    Chain(usize),
    /// This number in a chain that is followed to its end.
    ChainWith(u8),
    FragmentFirst,
    FragmentBetween,
    FragmentAfterEight,
    EightThen(Kind),
    Damaged(Damage),
    Transport(Kind),
    Message,
    /// The event of a message that a rule does not ask for.
    OtherMessage,
    OtherProtocol,
    /// A rule with IPv6 settings decides.
    Decides(Action),
    Prefix(Compared),
    Meets(Meeting),
    Protocol(Protocol),
    /// The mismatch event of IPv4 or IPv6, on a frame that shows either or none.
    Event(u16, Packet),
    Held(Held),
    /// A segment that opens where every place is held.
    NoFreePlace,
    /// Good records in which two quadruples differ in their kind alone, and two in one bit.
    NearlyAlike,
}

pub const HALVES: [Half; 4] = [
    Half { source: true, high: true },
    Half { source: true, high: false },
    Half { source: false, high: true },
    Half { source: false, high: false },
];

const MEETINGS: [Meeting; 4] = [Meeting::AnyIpv4, Meeting::AnyIpv6, Meeting::ProtocolIpv4, Meeting::ProtocolIpv6];

impl Wish {
    pub fn all() -> Vec<Wish> {
        let mut all: Vec<Wish> = (0..=LONGEST_CHAIN + 2).map(Wish::Chain).collect();
        all.extend(EXTENSIONS.map(Wish::ChainWith));
        all.extend([Wish::FragmentFirst, Wish::FragmentBetween, Wish::FragmentAfterEight]);
        all.extend([Kind::Tcp, Kind::Udp].map(Wish::EightThen));
        all.extend(ipv6_damages().iter().copied().map(Wish::Damaged));
        all.extend([Kind::Tcp, Kind::Udp].map(Wish::Transport));
        all.extend([Wish::Message, Wish::OtherMessage, Wish::OtherProtocol]);
        all.extend([Action::Allow, Action::Block].map(Wish::Decides));
        all.extend(LENGTHS.map(|length| Wish::Prefix(Compared::Agrees(length))));
        all.extend(LENGTHS[1..].iter().map(|length| Wish::Prefix(Compared::LastBit(*length))));
        all.extend(LENGTHS[..LENGTHS.len() - 1].iter().map(|length| Wish::Prefix(Compared::NextBit(*length))));
        all.extend(MEETINGS.map(Wish::Meets));
        let met = [Protocol::Agrees, Protocol::AgreesAfterChain, Protocol::Disagrees, Protocol::FailedChain];
        all.extend(met.map(Wish::Protocol));
        all.extend(PROTOCOLS[3..].iter().map(|number| Wish::Protocol(Protocol::Is(*number))));
        for event in [51, 52] {
            all.extend([Packet::V4, Packet::V6, Packet::None].map(|packet| Wish::Event(event, packet)));
        }
        all.extend([Held::BothKinds, Held::AlikeButKind, Held::ZeroButKind].map(Wish::Held));
        all.extend(HALVES.map(|half| Wish::Held(Held::OneBitApart(half))));
        all.extend([Wish::NoFreePlace, Wish::NearlyAlike]);
        all
    }

    /// What the reach report calls it.
    pub fn name(self) -> String {
        match self {
            Wish::Chain(headers) => format!("chain-{headers}"),
            Wish::ChainWith(number) => format!("chain-with-{number}"),
            Wish::FragmentFirst => "chain-44-first".to_string(),
            Wish::FragmentBetween => "chain-44-between".to_string(),
            Wish::FragmentAfterEight => "chain-44-after-eight".to_string(),
            Wish::EightThen(kind) => format!("chain-eight-then-{}", word(kind)),
            Wish::Damaged(damage) => damage_name(damage).to_string(),
            Wish::Transport(kind) => format!("ipv6-{}", word(kind)),
            Wish::Message => "ipv6-someip".to_string(),
            Wish::OtherMessage => "ipv6-someip-mismatch".to_string(),
            Wish::OtherProtocol => "ipv6-protocol-other".to_string(),
            Wish::Decides(Action::Allow) => "ipv6-rule-allows".to_string(),
            Wish::Decides(Action::Block) => "ipv6-rule-blocks".to_string(),
            Wish::Prefix(Compared::Agrees(length)) => format!("ipv6-prefix-{length}-agrees"),
            Wish::Prefix(Compared::LastBit(length)) => format!("ipv6-prefix-{length}-last-bit"),
            Wish::Prefix(Compared::NextBit(length)) => format!("ipv6-prefix-{length}-next-bit"),
            Wish::Meets(Meeting::AnyIpv4) => "ipv4-prefix-meets-ipv6".to_string(),
            Wish::Meets(Meeting::AnyIpv6) => "ipv6-prefix-meets-ipv4".to_string(),
            Wish::Meets(Meeting::ProtocolIpv4) => "ipv4-protocol-meets-ipv6".to_string(),
            Wish::Meets(Meeting::ProtocolIpv6) => "ipv6-protocol-meets-ipv4".to_string(),
            Wish::Protocol(Protocol::Agrees) => "ipv6-protocol-agrees".to_string(),
            Wish::Protocol(Protocol::AgreesAfterChain) => "ipv6-protocol-agrees-after-chain".to_string(),
            Wish::Protocol(Protocol::Disagrees) => "ipv6-protocol-disagrees".to_string(),
            Wish::Protocol(Protocol::FailedChain) => "ipv6-protocol-meets-failed-chain".to_string(),
            Wish::Protocol(Protocol::Is(number)) => format!("ipv6-protocol-{number}"),
            Wish::Event(event, Packet::V4) => format!("event-{event}-on-ipv4"),
            Wish::Event(event, Packet::V6) => format!("event-{event}-on-ipv6"),
            Wish::Event(event, Packet::None) => format!("event-{event}-on-no-ip"),
            Wish::Held(Held::BothKinds) => "held-both-kinds".to_string(),
            Wish::Held(Held::AlikeButKind) => "held-alike-but-kind".to_string(),
            Wish::Held(Held::ZeroButKind) => "held-zero-but-kind".to_string(),
            Wish::Held(Held::OneBitApart(half)) => {
                let address = if half.source { "source" } else { "destination" };
                format!("held-one-bit-apart-{address}-{}", if half.high { "high" } else { "low" })
            }
            Wish::NoFreePlace => "ipv6-no-free-place".to_string(),
            Wish::NearlyAlike => "records-nearly-alike".to_string(),
        }
    }

    /// A frame under the modem's table that shows it; for two conversations, a frame of the rule that holds them.
    pub fn draft(self, table: &Table, random: &mut Random) -> Draft {
        let rule = &table.rules[self.place(random)];
        let mut draft = aim(rule, random);
        draft.tags.truncate(1);
        draft.messages.truncate(2);
        draft.shorten();
        draft.carry(Packet::V6);
        draft.chain = chain(random.pick(&[0, 0, 1, 2]), random);
        match self {
            Wish::Chain(headers) => draft.chain = chain(headers, random),
            Wish::ChainWith(number) => {
                draft.chain = chain(random.between(1, 8) as usize, random);
                let at = random.below(draft.chain.len() as u64) as usize;
                draft.chain[at].number = number;
            }
            Wish::FragmentFirst => draft.chain.insert(0, A_FRAGMENT),
            Wish::FragmentBetween => {
                draft.chain = chain(random.between(2, 7) as usize, random);
                draft.chain.insert(random.between(1, draft.chain.len() as u64 - 1) as usize, A_FRAGMENT);
            }
            Wish::FragmentAfterEight => {
                draft.chain = chain(LONGEST_CHAIN, random);
                draft.chain.push(A_FRAGMENT);
            }
            Wish::EightThen(_) => draft.chain = chain(LONGEST_CHAIN, random),
            Wish::Damaged(damage) => {
                draft.damage = damage;
                draft.show_damage(Packet::V6);
            }
            Wish::OtherMessage => draft.messages[0].turn(set::SERVICE, random),
            Wish::OtherProtocol => draft.protocol = Some(ICMPV6),
            Wish::Prefix(compared) => compare(rule, compared, &mut draft),
            Wish::Meets(Meeting::AnyIpv6 | Meeting::ProtocolIpv6) => draft.carry(Packet::V4),
            Wish::Protocol(protocol) => meet(protocol, &mut draft, random),
            Wish::Event(_, packet) => {
                draft.kind = Kind::Tcp;
                draft.protocol = None;
                draft.carry(packet);
                if packet == Packet::None {
                    draft.ether = 0x0806;
                }
            }
            _ => {}
        }
        draft
    }

    /// The rule that the frame is aimed at.
    fn place(self, random: &mut Random) -> usize {
        let with = |length: u8| {
            let at = LENGTHS.iter().position(|each| *each == length).expect("one of the lengths");
            [SOURCES + at, DESTINATIONS + at]
        };
        match self {
            Wish::EightThen(Kind::Tcp) | Wish::Transport(Kind::Tcp) => SEGMENTS,
            Wish::Damaged(Damage::TcpNineteen | Damage::TcpOneBeyond) => SEGMENTS,
            Wish::Transport(Kind::Udp) => UDP_IPV6,
            Wish::Decides(Action::Allow) => SOURCES,
            Wish::Decides(Action::Block) => DESTINATIONS,
            Wish::Prefix(Compared::Agrees(length) | Compared::LastBit(length) | Compared::NextBit(length)) => {
                random.pick(&with(length))
            }
            Wish::Meets(Meeting::AnyIpv4) => ANY_IPV4,
            Wish::Meets(Meeting::AnyIpv6) => SOURCES,
            Wish::Meets(Meeting::ProtocolIpv4) => UDP_IPV4,
            Wish::Meets(Meeting::ProtocolIpv6) => UDP_IPV6,
            Wish::Protocol(Protocol::Is(number)) => {
                BY_PROTOCOL + PROTOCOLS.iter().position(|each| *each == number).expect("one of the protocols")
            }
            Wish::Protocol(_) => BY_PROTOCOL + random.below(3) as usize,
            Wish::Held(_) | Wish::NoFreePlace | Wish::NearlyAlike => TRACKED,
            _ => MESSAGES,
        }
    }
}

const A_FRAGMENT: Extension = Extension { number: FRAGMENT, units: 0 };

fn word(kind: Kind) -> &'static str {
    match kind {
        Kind::Tcp => "tcp",
        Kind::Udp => "udp",
    }
}

fn damage_name(damage: Damage) -> &'static str {
    match damage {
        Damage::Rest39 => "ipv6-rest-39",
        Damage::Version6 => "ipv6-version",
        Damage::LengthOneMore => "ipv6-length-one-more",
        Damage::LengthOneLess => "ipv6-length-one-less",
        Damage::LengthZero => "ipv6-length-0",
        Damage::HeaderAlone => "ipv6-header-alone",
        Damage::CutHeader => "chain-cut-under-8",
        Damage::CutLength => "chain-cut-own-length",
        Damage::CutUnit => "chain-cut-one-unit",
        Damage::CutByte => "chain-cut-one-byte",
        Damage::CutByteOfLonger => "chain-cut-one-byte-of-longer",
        Damage::TcpNineteen => "ipv6-tcp-19-bytes",
        Damage::TcpOneBeyond => "ipv6-tcp-one-beyond",
        Damage::UdpSeven => "ipv6-udp-7-bytes",
        Damage::UdpOneMore => "ipv6-udp-one-more",
        Damage::UdpOneLess => "ipv6-udp-one-less",
        Damage::UdpWithChain => "ipv6-udp-with-chain",
        _ => unreachable!("no damage of IPv6: {damage:?}"),
    }
}

/// So many headers, none of which fails the chain.
pub fn chain(headers: usize, random: &mut Random) -> Vec<Extension> {
    (0..headers).map(|_| Extension { number: random.pick(&EXTENSIONS), units: random.pick(&[0, 0, 0, 1, 2]) }).collect()
}

/// The rule has one prefix, for the source or for the destination.
fn compare(rule: &Rule, compared: Compared, draft: &mut Draft) {
    let of_source = rule.has(set::SOURCE6);
    let prefix = if of_source { rule.source6 } else { rule.destination6 };
    let address = if of_source { &mut draft.source6 } else { &mut draft.destination6 };
    match compared {
        Compared::Agrees(_) => {}
        Compared::LastBit(length) => *address ^= 1 << (128 - length),
        Compared::NextBit(length) => *address = prefix.address ^ 1 << (127 - length),
    }
}

fn meet(protocol: Protocol, draft: &mut Draft, random: &mut Random) {
    match protocol {
        Protocol::Agrees => draft.chain.clear(),
        Protocol::AgreesAfterChain => draft.chain = chain(random.between(1, 8) as usize, random),
        Protocol::Disagrees => draft.protocol = Some(59),
        Protocol::FailedChain => draft.chain = chain(random.between(9, 10) as usize, random),
        Protocol::Is(number) => {
            draft.protocol = None;
            draft.chain.insert(0, Extension { number, units: 0 });
        }
    }
}
