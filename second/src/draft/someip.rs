//! Datagrams of SOME/IP messages: whole ones one behind the other, or one among them that is none.

use super::*;
use crate::layers::MESSAGE_HEADER;
use crate::table::set;

/// In what way a message is no whole one, or has too small a Length.
#[derive(Clone, Copy, PartialEq, Eq, Debug)]
pub enum Broken {
    /// The payload ends behind so many of its bytes, which are too few for a header.
    One,
    Few,
    Fifteen,
    /// Its Length is under 8, though more follows; or so many bytes are all it has, and what follows is whole.
    Low,
    LowCuts,
    /// Its Length is one more than what is left, or more than that.
    OneMore,
    High,
    /// 8 + Length, or this counted from the first message on, passes 2^32.
    Wraps,
    /// The low 16 bits of its Length are right, and they alone.
    Wide,
    /// What it lacks lies in the padding.
    IntoPadding,
}

pub const BROKEN: [Broken; 10] = [
    Broken::One,
    Broken::Few,
    Broken::Fifteen,
    Broken::Low,
    Broken::LowCuts,
    Broken::OneMore,
    Broken::High,
    Broken::Wraps,
    Broken::Wide,
    Broken::IntoPadding,
];

/// Whether whole messages stand before it.
#[derive(Clone, Copy, PartialEq, Eq, Debug)]
pub enum At {
    First,
    Later,
}

/// How many bytes of a message lie in the padding, in the damage of that name.
pub(super) const LACKING: usize = 4;

impl Message {
    /// Turns one bit of what this setting asks for.
    pub fn turn(&mut self, setting: u32, random: &mut Random) {
        match setting {
            set::SERVICE => self.service ^= 1 << random.below(16),
            set::METHOD => self.method ^= 1 << random.below(16),
            set::VERSION => self.version ^= 1 << random.below(8),
            set::MESSAGE => self.message ^= 1 << random.below(8),
            set::CODE => self.code ^= 1 << random.below(8),
            _ => unreachable!("no setting of SOME/IP: {setting}"),
        }
    }

    fn length(&self) -> u32 {
        8 + self.payload as u32
    }

    fn write(&self, bytes: &mut Vec<u8>, random: &mut Random) {
        bytes.extend([self.service.to_be_bytes(), self.method.to_be_bytes()].concat());
        bytes.extend(self.length().to_be_bytes());
        noise(bytes, 4, random);
        bytes.extend([self.version, 1, self.message, self.code]);
        noise(bytes, self.payload, random);
    }

    /// Breaks this message, which starts here among the bytes of all.
    fn break_at(&self, start: usize, broken: Broken, bytes: &mut Vec<u8>, random: &mut Random) {
        let left = (bytes.len() - start) as u32;
        let length = match broken {
            Broken::One => return bytes.truncate(start + 1),
            Broken::Few => return bytes.truncate(start + random.between(2, 14) as usize),
            Broken::Fifteen => return bytes.truncate(start + MESSAGE_HEADER - 1),
            Broken::Low => random.pick(&[0, 1, 6, 7, 7, 7]),
            Broken::LowCuts => {
                let length = random.pick(&[0, 1, 6, 7, 7, 7]);
                drop(bytes.drain(start + 8 + length..start + MESSAGE_HEADER + self.payload));
                length as u32
            }
            Broken::OneMore => left - 8 + 1,
            Broken::High => left - 8 + random.pick(&[2, 8, 16, 1_000, 0x7fff_ffff]),
            Broken::Wraps if random.chance(50) => (start as u32 + 8).wrapping_neg(),
            Broken::Wraps => u32::MAX - random.pick(&[0, 7, 7, 1, 4]),
            Broken::Wide => self.length() | random.pick(&[0x0001_0000, 0x0100_0000, 0x8000_0000, 0xffff_0000]),
            Broken::IntoPadding => left - 8 + LACKING as u32,
        };
        set_length(bytes, start, length);
    }
}

impl Draft {
    pub fn carries_messages(&self) -> bool {
        self.kind == Kind::Udp && !self.messages.is_empty()
    }

    /// Makes it a datagram with a message for its damage.
    pub(super) fn show_messages(&mut self) {
        self.kind = Kind::Udp;
        let least = if matches!(self.damage, Damage::Message(_, At::Later)) { 2 } else { 1 };
        let last = self.messages.last().copied().unwrap_or_default();
        self.messages.resize(self.messages.len().max(least), Message { payload: last.payload % 40, ..last });
        if let (Damage::MessageLengthLess, Some(last)) = (self.damage, self.messages.last_mut()) {
            last.payload = last.payload.max(1);
        }
    }

    /// What follows the header of UDP.
    pub(super) fn content(&self, random: &mut Random) -> Vec<u8> {
        let mut bytes = Vec::new();
        let mut starts = Vec::new();
        for message in &self.messages {
            starts.push(bytes.len());
            message.write(&mut bytes, random);
        }
        match (self.damage, self.messages.last()) {
            (_, None) => noise(&mut bytes, self.payload, random),
            (Damage::MessageLengthLess, Some(last)) if last.payload > 0 => {
                let less = random.between(8, u64::from(last.length()) - 1) as u32;
                set_length(&mut bytes, starts[starts.len() - 1], less);
            }
            (Damage::Message(broken, at), _) => {
                let last = starts.len() - 1;
                let at = if at == At::First { 0 } else { random.between(last.min(1) as u64, last as u64) as usize };
                self.messages[at].break_at(starts[at], broken, &mut bytes, random);
            }
            _ => {}
        }
        bytes
    }

    /// One that a rule which asks for the others does not ask for.
    pub(super) fn message_in_padding(&self, bytes: &mut Vec<u8>, random: &mut Random) {
        let mut message = self.messages.last().copied().unwrap_or_default();
        message.payload %= 20;
        for setting in [set::SERVICE, set::METHOD, set::VERSION, set::MESSAGE, set::CODE] {
            message.turn(setting, random);
        }
        message.write(bytes, random);
    }
}

fn set_length(bytes: &mut [u8], start: usize, length: u32) {
    bytes[start + 4..start + 8].copy_from_slice(&length.to_be_bytes());
}
