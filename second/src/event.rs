//! The events of 001 section 7.6.1: number, FirewallRuleId, then the array if there is one.

use crate::layers::{Ip, Kind, Layers, IPV6_HEADER, MESSAGE_HEADER};

pub const IPV4_MISMATCH: u16 = 51;
pub const IPV6_MISMATCH: u16 = 52;
pub const TCP_MISMATCH: u16 = 54;
pub const UDP_MISMATCH: u16 = 55;
pub const SOMEIP_MISMATCH: u16 = 56;
pub const TCP_MAXCONNECTIONS: u16 = 61;
pub const TCP_STATETRANSITION: u16 = 63;
pub const RATELIMIT: u16 = 64;
pub const LINK_MISMATCH: u16 = 77;

/// An event space under this is refused, though no event here is longer than 44 bytes.
pub const SPACE: usize = 256;

/// The length 001 gives the event's array.
fn array_length(number: u16) -> usize {
    match number {
        // 001 prints the row as CompleteIPv4Header, a slip: its length is that of the IPv6 header.
        IPV6_MISMATCH => IPV6_HEADER,
        LINK_MISMATCH => 30,
        IPV4_MISMATCH | TCP_MISMATCH | TCP_MAXCONNECTIONS => 24,
        SOMEIP_MISMATCH => MESSAGE_HEADER,
        UDP_MISMATCH => 8,
        RATELIMIT => 6,
        _ => 0,
    }
}

/// The bytes of the frame that belong in the array: the header itself and nothing of what follows it.
fn array_source<'a>(number: u16, frame: &'a [u8], layers: &Layers) -> &'a [u8] {
    let transport = |kind| layers.transport.filter(|transport| transport.kind == kind);
    let span = match number {
        LINK_MISMATCH => Some((0, layers.rest)),
        IPV4_MISMATCH => match layers.ip {
            Some(Ip::V4(ip)) => Some((layers.rest, ip.header)),
            _ => None,
        },
        IPV6_MISMATCH => match layers.ip {
            Some(Ip::V6(_)) => Some((layers.rest, IPV6_HEADER)),
            _ => None,
        },
        TCP_MISMATCH | TCP_MAXCONNECTIONS => transport(Kind::Tcp).map(|tcp| (tcp.start, tcp.header)),
        UDP_MISMATCH => transport(Kind::Udp).map(|udp| (udp.start, udp.header)),
        // "Events show the first" (02, 3/12).
        SOMEIP_MISMATCH => layers.someip.map(|someip| (someip.start, MESSAGE_HEADER)),
        RATELIMIT => Some((6, 6)),
        _ => None,
    };
    span.map_or(&[], |(start, length)| &frame[start..start + length])
}

/// Writes the event into the space and gives its length.
pub fn write(number: u16, rule: u16, frame: &[u8], layers: &Layers, space: &mut [u8]) -> usize {
    let length = 4 + array_length(number);
    let source = array_source(number, frame, layers);
    space[..2].copy_from_slice(&number.to_be_bytes());
    space[2..4].copy_from_slice(&rule.to_be_bytes());
    let array = &mut space[4..length];
    let copied = source.len().min(array.len());
    array[..copied].copy_from_slice(&source[..copied]);
    array[copied..].fill(0);
    length
}
