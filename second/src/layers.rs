//! What a frame shows: link, IP of either kind, transport and SOME/IP, from its bytes alone.

use crate::answer::Refusal;

pub const ETHER_TAG: u16 = 0x8100;
pub const ETHER_IPV4: u16 = 0x0800;
pub const ETHER_IPV6: u16 = 0x86dd;
pub const PROTOCOL_TCP: u8 = 6;
pub const PROTOCOL_UDP: u8 = 17;
/// The IPv6 header without its extension headers.
pub const IPV6_HEADER: usize = 40;
/// The extension headers that a chain is made of.
pub const HOP_BY_HOP: u8 = 0;
pub const ROUTING: u8 = 43;
pub const DEST_OPTIONS: u8 = 60;
/// The one that fails it.
pub const FRAGMENT: u8 = 44;
pub const LONGEST_CHAIN: usize = 8;
/// The header of a SOME/IP message: a message is 8 + Length bytes, and its Length at least 8.
pub const MESSAGE_HEADER: usize = 16;
const LEAST_LENGTH: u32 = 8;
pub const SHORTEST: usize = 14;
pub const SHORTEST_TAGGED: usize = 18;
pub const LONGEST: usize = 1_518;

#[derive(Clone, Copy, PartialEq, Eq, Debug)]
pub struct Tag {
    pub priority: u8,
    pub vlan: u16,
}

/// What the transport is read from: the protocol number, and where in the frame it starts and ends. What lies beyond is padding.
#[derive(Clone, Copy, PartialEq, Eq, Debug)]
pub struct Payload {
    pub protocol: u8,
    start: usize,
    end: usize,
}

#[derive(Clone, Copy, PartialEq, Eq, Debug)]
pub struct Ipv4 {
    pub source: u32,
    pub destination: u32,
    pub protocol: u8,
    /// Bytes of the header.
    pub header: usize,
    /// None in a fragment.
    payload: Option<Payload>,
}

#[derive(Clone, Copy, PartialEq, Eq, Debug)]
pub struct Ipv6 {
    pub source: u128,
    pub destination: u128,
    /// What follows the chain of extension headers; none where the chain fails.
    pub payload: Option<Payload>,
}

/// One layer of two kinds. Its header starts where the rest does.
#[derive(Clone, Copy, PartialEq, Eq, Debug)]
pub enum Ip {
    V4(Ipv4),
    V6(Ipv6),
}

/// Source and destination address of one kind; those of IPv6 as the bytes that the frame shows.
#[derive(Clone, Copy, PartialEq, Eq, Debug)]
pub enum Addresses {
    V4 { source: u32, destination: u32 },
    V6 { source: [u8; 16], destination: [u8; 16] },
}

impl Addresses {
    #[inline]
    pub fn v6(source: u128, destination: u128) -> Addresses {
        Addresses::V6 { source: source.to_be_bytes(), destination: destination.to_be_bytes() }
    }
}

impl Ip {
    #[inline]
    pub fn addresses(&self) -> Addresses {
        match self {
            Ip::V4(ip) => Addresses::V4 { source: ip.source, destination: ip.destination },
            Ip::V6(ip) => Addresses::v6(ip.source, ip.destination),
        }
    }

    #[inline]
    fn payload(&self) -> Option<Payload> {
        match self {
            Ip::V4(ip) => ip.payload,
            Ip::V6(ip) => ip.payload,
        }
    }
}

#[derive(Clone, Copy, PartialEq, Eq, Debug)]
pub enum Kind {
    Tcp,
    Udp,
}

#[derive(Clone, Copy, PartialEq, Eq, Debug)]
pub struct Transport {
    pub kind: Kind,
    pub sport: u16,
    pub dport: u16,
    pub start: usize,
    pub header: usize,
    /// The flag byte of TCP; 0 for UDP.
    pub flags: u8,
}

pub const FIN: u8 = 0x01;
pub const SYN: u8 = 0x02;
pub const RST: u8 = 0x04;
pub const ACK: u8 = 0x10;

/// What the settings of a rule ask of a message.
#[derive(Clone, Copy, PartialEq, Eq, Debug)]
pub struct Message {
    pub service: u16,
    pub method: u16,
    pub version: u8,
    pub message: u8,
    pub code: u8,
}

/// A UDP payload that "cuts, with nothing left over, into one or more whole messages" (02, 3/12).
#[derive(Clone, Copy, PartialEq, Eq, Debug)]
pub struct SomeIp<'a> {
    payload: &'a [u8],
    /// Where in the frame the first message starts.
    pub start: usize,
}

impl<'a> SomeIp<'a> {
    /// Every message, one behind the other; there is at least one.
    #[inline]
    pub fn messages(&self) -> impl Iterator<Item = Message> + 'a {
        let mut left = self.payload;
        std::iter::from_fn(move || {
            let (message, behind) = cut_message(left)?;
            left = behind;
            Some(message)
        })
    }
}

#[derive(Clone, Copy, PartialEq, Eq, Debug)]
pub struct Layers<'a> {
    pub dst: u64,
    pub src: u64,
    pub tag: Option<Tag>,
    pub ether: u16,
    /// Bytes of the link header: where the rest starts.
    pub rest: usize,
    pub ip: Option<Ip>,
    pub transport: Option<Transport>,
    pub someip: Option<SomeIp<'a>>,
}

pub fn be16(bytes: &[u8], at: usize) -> u16 {
    u16::from_be_bytes([bytes[at], bytes[at + 1]])
}

pub fn be32(bytes: &[u8], at: usize) -> u32 {
    u32::from_be_bytes([bytes[at], bytes[at + 1], bytes[at + 2], bytes[at + 3]])
}

pub fn be64(bytes: &[u8], at: usize) -> u64 {
    u64::from(be32(bytes, at)) << 32 | u64::from(be32(bytes, at + 4))
}

pub fn be128(bytes: &[u8], at: usize) -> u128 {
    u128::from(be64(bytes, at)) << 64 | u128::from(be64(bytes, at + 8))
}

pub fn mac(bytes: &[u8], at: usize) -> u64 {
    u64::from(be16(bytes, at)) << 32 | u64::from(be32(bytes, at + 2))
}

/// Reads the layers of a frame; refuses 1 and 2 alone.
#[inline]
pub fn read(frame: &[u8]) -> Result<Layers<'_>, Refusal> {
    if frame.len() < SHORTEST {
        return Err(Refusal::ShortFrame);
    }
    let tagged = be16(frame, 12) == ETHER_TAG;
    if tagged && frame.len() < SHORTEST_TAGGED {
        return Err(Refusal::ShortFrame);
    }
    if frame.len() > LONGEST {
        return Err(Refusal::LongFrame);
    }
    let rest = if tagged { SHORTEST_TAGGED } else { SHORTEST };
    let tag = tagged.then(|| read_tag(be16(frame, 14)));
    let ether = be16(frame, rest - 2);
    let ip = match ether {
        ETHER_IPV4 => read_ipv4(frame, rest).map(Ip::V4),
        ETHER_IPV6 => read_ipv6(frame, rest).map(Ip::V6),
        _ => None,
    };
    let payload = ip.and_then(|ip| ip.payload());
    let transport = payload.and_then(|payload| read_transport(frame, payload));
    let someip = match (payload, transport) {
        (Some(payload), Some(transport)) if transport.kind == Kind::Udp => {
            read_someip(&frame[..payload.end], transport.start + transport.header)
        }
        _ => None,
    };
    Ok(Layers { dst: mac(frame, 0), src: mac(frame, 6), tag, ether, rest, ip, transport, someip })
}

fn read_tag(word: u16) -> Tag {
    Tag { priority: (word >> 13) as u8, vlan: word & 0x0fff }
}

fn read_ipv4(frame: &[u8], start: usize) -> Option<Ipv4> {
    let packet = &frame[start..];
    if packet.len() < 20 || packet[0] >> 4 != 4 {
        return None;
    }
    let words = usize::from(packet[0] & 0x0f);
    let header = 4 * words;
    let total = usize::from(be16(packet, 2));
    if words < 5 || header > total || total > packet.len() || !sums(&packet[..header]) {
        return None;
    }
    let protocol = packet[9];
    // More-fragments and the offset; the bits above them say nothing here.
    let whole = be16(packet, 6) & 0x3fff == 0;
    let payload = whole.then_some(Payload { protocol, start: start + header, end: start + total });
    Some(Ipv4 { source: be32(packet, 12), destination: be32(packet, 16), protocol, header, payload })
}

/// The header's 16-bit words sum in ones' complement to 0xFFFF.
fn sums(header: &[u8]) -> bool {
    let sum: u32 = header.chunks_exact(2).map(|word| u32::from(be16(word, 0))).sum();
    let once = (sum & 0xffff) + (sum >> 16);
    (once & 0xffff) + (once >> 16) == 0xffff
}

/// The layer is present whatever becomes of the chain.
fn read_ipv6(frame: &[u8], start: usize) -> Option<Ipv6> {
    let packet = &frame[start..];
    if packet.len() < IPV6_HEADER || packet[0] >> 4 != 6 {
        return None;
    }
    let end = IPV6_HEADER + usize::from(be16(packet, 4));
    if end > packet.len() {
        return None;
    }
    let chain = follow_chain(packet[6], &packet[IPV6_HEADER..end]);
    let payload =
        chain.map(|(protocol, length)| Payload { protocol, start: start + IPV6_HEADER + length, end: start + end });
    Some(Ipv6 { source: be128(packet, 8), destination: be128(packet, 24), payload })
}

/// The number after the chain and the chain's bytes; none where a header is cut, a ninth follows, or a fragment header.
fn follow_chain(first: u8, payload: &[u8]) -> Option<(u8, usize)> {
    let (mut number, mut at) = (first, 0);
    for _ in 0..LONGEST_CHAIN {
        if !is_extension(number) {
            break;
        }
        let left = &payload[at..];
        if left.len() < 8 {
            return None;
        }
        let length = 8 + 8 * usize::from(left[1]);
        if length > left.len() {
            return None;
        }
        number = left[0];
        at += length;
    }
    if is_extension(number) || number == FRAGMENT {
        None
    } else {
        Some((number, at))
    }
}

pub fn is_extension(number: u8) -> bool {
    matches!(number, HOP_BY_HOP | ROUTING | DEST_OPTIONS)
}

fn read_transport(frame: &[u8], payload: Payload) -> Option<Transport> {
    let bytes = &frame[payload.start..payload.end];
    match payload.protocol {
        PROTOCOL_TCP => read_tcp(bytes, payload.start),
        PROTOCOL_UDP => read_udp(bytes, payload.start),
        _ => None,
    }
}

fn read_tcp(payload: &[u8], start: usize) -> Option<Transport> {
    if payload.len() < 20 {
        return None;
    }
    let offset = usize::from(payload[12] >> 4);
    if offset < 5 || 4 * offset > payload.len() {
        return None;
    }
    let (sport, dport) = (be16(payload, 0), be16(payload, 2));
    Some(Transport { kind: Kind::Tcp, sport, dport, start, header: 4 * offset, flags: payload[13] })
}

fn read_udp(payload: &[u8], start: usize) -> Option<Transport> {
    if payload.len() < 8 || usize::from(be16(payload, 4)) != payload.len() {
        return None;
    }
    let (sport, dport) = (be16(payload, 0), be16(payload, 2));
    Some(Transport { kind: Kind::Udp, sport, dport, start, header: 8, flags: 0 })
}

/// Present "exactly when the UDP payload cuts, with nothing left over"; an empty one cuts into no message. `packet` ends where the IP
/// packet does.
fn read_someip(packet: &[u8], start: usize) -> Option<SomeIp<'_>> {
    let payload = &packet[start..];
    let mut left = payload;
    loop {
        (_, left) = cut_message(left)?;
        if left.is_empty() {
            return Some(SomeIp { payload, start });
        }
    }
}

/// The whole message that these bytes start with, and what lies behind it; none where they start with none, or with a Length under 8.
#[inline]
fn cut_message(bytes: &[u8]) -> Option<(Message, &[u8])> {
    if bytes.len() < MESSAGE_HEADER {
        return None;
    }
    // Up to 2^32 - 1, so that nothing is added to it before it is known to fit.
    let length = be32(bytes, 4);
    if length < LEAST_LENGTH || u64::from(length) > bytes.len() as u64 - 8 {
        return None;
    }
    let (service, method) = (be16(bytes, 0), be16(bytes, 2));
    let message = Message { service, method, version: bytes[12], message: bytes[14], code: bytes[15] };
    Some((message, &bytes[8 + length as usize..]))
}
