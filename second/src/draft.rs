//! Frames as the generator drafts them: fields first, then bytes, then what is broken on purpose.

mod ipv6;
mod someip;

pub use someip::{At, Broken, BROKEN};

use crate::layers::{Addresses, Kind, DEST_OPTIONS, ETHER_IPV4, ETHER_IPV6, ETHER_TAG, IPV6_HEADER, LONGEST_CHAIN};
use crate::layers::{PROTOCOL_TCP, PROTOCOL_UDP};
use crate::random::Random;

/// What is broken on purpose. The checksum of IPv4 is right after all but `Checksum` and those that touch bytes at the end.
#[derive(Clone, Copy, PartialEq, Eq, Debug)]
pub enum Damage {
    None,
    MoreFragments,
    FragmentOffset,
    Padding,
    Cut,
    CutDeep,
    Checksum,
    Version,
    FewWords,
    ManyWords,
    TotalBelowHeader,
    TotalBeyondRest,
    UdpLength,
    ShortTcp,
    ShortUdp,
    TcpOffsetLow,
    TcpOffsetHigh,
    /// The last message of SOME/IP says less than it has, so that something is left over; or a message is no whole one.
    MessageLengthLess,
    Message(Broken, At),
    /// A message of SOME/IP lies in the padding.
    MessageInPadding,
    Flip,
    /// The rest has 39 bytes, one less than the IPv6 header.
    Rest39,
    Version6,
    /// The payload length of IPv6 is one more than the rest after the header, or one less, or 0.
    LengthOneMore,
    LengthOneLess,
    LengthZero,
    /// The packet is the IPv6 header and no more.
    HeaderAlone,
    /// In the chain's last header: fewer than 8 bytes are left; its own length goes beyond the payload, by any number of bytes,
    /// by one unit of 8, or by one byte, be it one of 8 bytes or a longer one.
    CutHeader,
    CutLength,
    CutUnit,
    CutByte,
    CutByteOfLonger,
    TcpNineteen,
    TcpOneBeyond,
    UdpSeven,
    UdpOneMore,
    UdpOneLess,
    /// The UDP length counts the extension headers too.
    UdpWithChain,
}

/// Those that show on IPv4, but for messages that are no whole ones.
pub const DAMAGES: [Damage; 19] = [
    Damage::MoreFragments,
    Damage::FragmentOffset,
    Damage::Padding,
    Damage::Cut,
    Damage::CutDeep,
    Damage::Checksum,
    Damage::Version,
    Damage::FewWords,
    Damage::ManyWords,
    Damage::TotalBelowHeader,
    Damage::TotalBeyondRest,
    Damage::UdpLength,
    Damage::ShortTcp,
    Damage::ShortUdp,
    Damage::TcpOffsetLow,
    Damage::TcpOffsetHigh,
    Damage::MessageLengthLess,
    Damage::MessageInPadding,
    Damage::Flip,
];

/// Those that show on IPv6, but for the same: three that every frame can have, those of IPv6 alone, and one more.
pub const DAMAGES6: [Damage; 21] = [
    Damage::Padding,
    Damage::Cut,
    Damage::CutDeep,
    Damage::Rest39,
    Damage::Version6,
    Damage::LengthOneMore,
    Damage::LengthOneLess,
    Damage::LengthZero,
    Damage::HeaderAlone,
    Damage::CutHeader,
    Damage::CutLength,
    Damage::CutUnit,
    Damage::CutByte,
    Damage::CutByteOfLonger,
    Damage::TcpNineteen,
    Damage::TcpOneBeyond,
    Damage::UdpSeven,
    Damage::UdpOneMore,
    Damage::UdpOneLess,
    Damage::UdpWithChain,
    Damage::Flip,
];

/// Those of IPv6 alone.
pub fn ipv6_damages() -> &'static [Damage] {
    &DAMAGES6[3..20]
}

/// The packet that follows the link header, whatever the ether type says.
#[derive(Clone, Copy, PartialEq, Eq, Debug)]
pub enum Packet {
    None,
    V4,
    V6,
}

/// An extension header: its number, and the byte that gives its length in units of 8 beyond the first. The rest of it is noise.
#[derive(Clone, Copy, Debug)]
pub struct Extension {
    pub number: u8,
    pub units: u8,
}

/// A message of SOME/IP, with so many bytes behind its header.
#[derive(Clone, Copy, Debug, Default)]
pub struct Message {
    pub service: u16,
    pub method: u16,
    pub version: u8,
    pub message: u8,
    pub code: u8,
    pub payload: usize,
}

#[derive(Clone, Debug)]
pub struct Draft {
    pub dst: u64,
    pub src: u64,
    /// Priority and VLAN id as one word, for each tag; only the first is ever read.
    pub tags: Vec<u16>,
    pub ether: u16,
    pub packet: Packet,
    pub source: u32,
    pub destination: u32,
    pub source6: u128,
    pub destination6: u128,
    /// The number for the transport, where it is not the one of its kind.
    pub protocol: Option<u8>,
    /// Words of options of IPv4.
    pub ip_options: usize,
    /// Extension headers of IPv6.
    pub chain: Vec<Extension>,
    pub kind: Kind,
    pub sport: u16,
    pub dport: u16,
    pub flags: u8,
    pub tcp_options: usize,
    /// What a datagram is made of, one behind the other.
    pub messages: Vec<Message>,
    /// What follows the transport's header where no message does.
    pub payload: usize,
    pub damage: Damage,
}

fn noise(bytes: &mut Vec<u8>, length: usize, random: &mut Random) {
    bytes.extend((0..length).map(|_| random.next() as u8));
}

impl Draft {
    /// Makes it a packet of this kind, under its ether type.
    pub fn carry(&mut self, packet: Packet) {
        self.packet = packet;
        match packet {
            Packet::None => {}
            Packet::V4 => self.ether = ETHER_IPV4,
            Packet::V6 => self.ether = ETHER_IPV6,
        }
    }

    pub fn addresses(&self) -> Addresses {
        match self.packet {
            Packet::V6 => Addresses::v6(self.source6, self.destination6),
            _ => Addresses::V4 { source: self.source, destination: self.destination },
        }
    }

    /// Makes it a packet between these addresses.
    pub fn set_addresses(&mut self, addresses: Addresses) {
        match addresses {
            Addresses::V4 { source, destination } => {
                self.carry(Packet::V4);
                (self.source, self.destination) = (source, destination);
            }
            Addresses::V6 { source, destination } => {
                self.carry(Packet::V6);
                (self.source6, self.destination6) = (u128::from_be_bytes(source), u128::from_be_bytes(destination));
            }
        }
    }

    /// Makes the draft one in which its damage shows on a packet of this kind.
    pub fn show_damage(&mut self, packet: Packet) {
        self.tags.truncate(1);
        self.carry(packet);
        self.protocol = None;
        match self.damage {
            Damage::ShortTcp | Damage::TcpOffsetLow | Damage::TcpOffsetHigh => self.kind = Kind::Tcp,
            Damage::TcpNineteen | Damage::TcpOneBeyond => self.kind = Kind::Tcp,
            Damage::ShortUdp | Damage::UdpLength => self.kind = Kind::Udp,
            Damage::MessageLengthLess | Damage::Message(..) | Damage::MessageInPadding => self.show_messages(),
            Damage::UdpSeven | Damage::UdpOneMore | Damage::UdpOneLess | Damage::UdpWithChain => self.kind = Kind::Udp,
            _ => {}
        }
        match self.damage {
            Damage::HeaderAlone => self.chain.clear(),
            Damage::CutHeader | Damage::CutLength | Damage::CutUnit | Damage::UdpWithChain => self.end_chain(None),
            Damage::CutByte => self.end_chain(Some(0)),
            Damage::CutByteOfLonger => self.end_chain(Some(2)),
            _ => {}
        }
    }

    /// Makes the chain one that is followed but for the damage of its last header, which has so many units if that is asked.
    fn end_chain(&mut self, units: Option<u8>) {
        self.chain.truncate(LONGEST_CHAIN);
        let last = self.chain.pop().unwrap_or(Extension { number: DEST_OPTIONS, units: 0 });
        self.chain.push(Extension { units: units.unwrap_or(last.units), ..last });
    }

    /// Leaves little behind each header.
    pub fn shorten(&mut self) {
        self.payload %= 40;
        for message in &mut self.messages {
            message.payload %= 40;
        }
    }

    pub fn bytes(&self, random: &mut Random) -> Vec<u8> {
        let mut bytes = self.link();
        let rest = bytes.len();
        match self.packet {
            Packet::None => noise(&mut bytes, self.payload, random),
            Packet::V4 => bytes.extend(self.packet(random)),
            Packet::V6 => bytes.extend(self.packet6(random)),
        }
        match self.damage {
            Damage::Rest39 => bytes.truncate(rest + IPV6_HEADER - 1),
            Damage::Padding => noise(&mut bytes, random.between(1, 20) as usize, random),
            Damage::Message(Broken::IntoPadding, _) => noise(&mut bytes, someip::LACKING, random),
            Damage::MessageInPadding => self.message_in_padding(&mut bytes, random),
            Damage::CutDeep => bytes.truncate(random.between(14, 40) as usize),
            Damage::Cut => bytes.truncate(bytes.len() - random.between(1, 6) as usize),
            Damage::Flip => {
                let at = random.below(bytes.len() as u64) as usize;
                bytes[at] ^= 1 << random.below(8);
            }
            _ => {}
        }
        bytes
    }

    fn link(&self) -> Vec<u8> {
        let mut bytes = self.dst.to_be_bytes()[2..].to_vec();
        bytes.extend(&self.src.to_be_bytes()[2..]);
        for tag in &self.tags {
            bytes.extend([ETHER_TAG.to_be_bytes(), tag.to_be_bytes()].concat());
        }
        bytes.extend(self.ether.to_be_bytes());
        bytes
    }

    fn transport(&self, random: &mut Random) -> Vec<u8> {
        match self.kind {
            Kind::Tcp => self.tcp(random),
            Kind::Udp => self.udp(random),
        }
    }

    fn protocol(&self) -> u8 {
        let by_kind = if self.kind == Kind::Tcp { PROTOCOL_TCP } else { PROTOCOL_UDP };
        self.protocol.unwrap_or(by_kind)
    }

    fn packet(&self, random: &mut Random) -> Vec<u8> {
        let payload = self.transport(random);
        let words = 5 + self.ip_options;
        let total = 4 * words + payload.len();
        let mut header = vec![0x40 | words as u8, random.next() as u8];
        header.extend((total as u16).to_be_bytes());
        noise(&mut header, 2, random);
        // The bit for do-not-fragment and the one above it say nothing to the firewall.
        header.extend([random.pick(&[0, 0x40, 0x80]), 0, 64, self.protocol(), 0, 0]);
        header.extend([self.source.to_be_bytes(), self.destination.to_be_bytes()].concat());
        noise(&mut header, 4 * self.ip_options, random);
        let mut packet = header;
        packet.extend(payload);
        self.damage_header(&mut packet, random);
        sum_header(&mut packet);
        if self.damage == Damage::Checksum {
            packet[10 + random.below(2) as usize] ^= 1 << random.below(8);
        }
        packet
    }

    fn damage_header(&self, packet: &mut [u8], random: &mut Random) {
        let words = packet[0] & 0x0f;
        let total = packet.len() as u16;
        match self.damage {
            Damage::MoreFragments => packet[6] |= 0x20,
            Damage::FragmentOffset => {
                let offset = random.between(1, 0x1fff) as u16;
                packet[6] |= (offset >> 8) as u8;
                packet[7] = offset as u8;
            }
            Damage::Version => packet[0] = random.pick(&[0x00, 0x50, 0x60, 0xf0]) | words,
            Damage::FewWords => packet[0] = 0x40 | random.below(5) as u8,
            Damage::ManyWords => packet[0] = 0x4f,
            Damage::TotalBelowHeader => {
                let less = u16::from(4 * words) - random.between(1, 20) as u16;
                packet[2..4].copy_from_slice(&less.to_be_bytes());
            }
            Damage::TotalBeyondRest => {
                let more = total + random.pick(&[1, 1, 2, 40_000]);
                packet[2..4].copy_from_slice(&more.to_be_bytes());
            }
            _ => {}
        }
    }

    fn tcp(&self, random: &mut Random) -> Vec<u8> {
        let mut bytes = [self.sport.to_be_bytes(), self.dport.to_be_bytes()].concat();
        noise(&mut bytes, 8, random);
        let words = match self.damage {
            Damage::TcpOffsetLow => random.below(5) as u8,
            Damage::TcpOffsetHigh => 15,
            _ => 5 + self.tcp_options as u8,
        };
        // Tracking looks at four flags; the others come as they like.
        let other = random.next() as u8 & 0xe8;
        bytes.extend([words << 4 | random.below(16) as u8, self.flags | other]);
        noise(&mut bytes, 6 + 4 * self.tcp_options + self.payload, random);
        if self.damage == Damage::ShortTcp {
            bytes.truncate(random.below(20) as usize);
        }
        if self.damage == Damage::TcpOffsetHigh {
            bytes.truncate(random.between(20, 59) as usize);
        }
        match self.damage {
            Damage::TcpNineteen => bytes.truncate(19),
            Damage::TcpOneBeyond => {
                bytes[12] = 0x60 | bytes[12] & 0x0f;
                bytes.resize(23, 0);
            }
            _ => {}
        }
        bytes
    }

    fn udp(&self, random: &mut Random) -> Vec<u8> {
        let content = self.content(random);
        let mut length = 8 + content.len() as u16;
        if self.damage == Damage::UdpLength {
            length = length.wrapping_add(random.pick(&[1, 8, 1_000, 0xffff, 0xfff8]));
        }
        match self.damage {
            Damage::UdpOneMore => length += 1,
            Damage::UdpOneLess => length -= 1,
            Damage::UdpWithChain => {
                length += self.chain.iter().map(|header| 8 + 8 * u16::from(header.units)).sum::<u16>()
            }
            _ => {}
        }
        let mut bytes = [self.sport.to_be_bytes(), self.dport.to_be_bytes(), length.to_be_bytes()].concat();
        noise(&mut bytes, 2, random);
        bytes.extend(content);
        match self.damage {
            Damage::ShortUdp => bytes.truncate(random.below(8) as usize),
            Damage::UdpSeven => bytes.truncate(7),
            _ => {}
        }
        bytes
    }
}

/// Makes the header's words sum to 0xFFFF, over as many words as the header says it has and the packet holds.
fn sum_header(packet: &mut [u8]) {
    let header = (4 * usize::from(packet[0] & 0x0f)).clamp(20, packet.len().max(20)) & !1;
    packet[10..12].fill(0);
    let mut sum: u32 = packet[..header].chunks(2).map(|w| u32::from(w[0]) << 8 | u32::from(w[1])).sum();
    while sum > 0xffff {
        sum = (sum & 0xffff) + (sum >> 16);
    }
    packet[10..12].copy_from_slice(&(!sum as u16).to_be_bytes());
}

/// A frame of no sense: any length, sometimes with ether types that mean something.
pub fn junk(length: usize, random: &mut Random) -> Vec<u8> {
    let mut bytes = Vec::new();
    noise(&mut bytes, length, random);
    let ether = if length % 2 == 1 { ETHER_TAG } else { random.pick(&[ETHER_TAG, ETHER_IPV4, ETHER_IPV4, ETHER_IPV6]) };
    if length >= 14 && random.chance(75) {
        bytes[12..14].copy_from_slice(&ether.to_be_bytes());
    }
    bytes
}
