//! Faults brought on purpose in a good file header, one at a time.

use crate::capture::{Form, Header, FILE_HEADER};
use crate::random::Random;

#[derive(Clone, Copy)]
pub struct Fault {
    pub name: &'static str,
    bring: fn(&mut Header, &mut Random),
}

const fn fault(name: &'static str, bring: fn(&mut Header, &mut Random)) -> Fault {
    Fault { name, bring }
}

/// The high half of one number and the low half of another.
fn halves(high: u32, low: u32) -> u32 {
    high & 0xffff_0000 | low & 0xffff
}

pub const FAULTS: [Fault; 29] = [
    fault("magic-any", |header, random| header.magic = random.next() as u32 & 0x7fff_ffff),
    fault("magic-one-bit", |header, random| header.magic ^= 1 << random.below(32)),
    fault("magic-first-half-of-other-order", |header, _| {
        header.magic = halves(header.magic.swap_bytes(), header.magic);
    }),
    fault("magic-second-half-of-other-order", |header, _| {
        header.magic = halves(header.magic, header.magic.swap_bytes());
    }),
    // each half in the other order, where it stands
    fault("magic-first-half-turned", |header, _| {
        header.magic = halves(header.magic.swap_bytes().rotate_left(16), header.magic);
    }),
    fault("magic-second-half-turned", |header, _| {
        header.magic = halves(header.magic, header.magic.swap_bytes().rotate_left(16));
    }),
    fault("magic-halves-swapped", |header, _| header.magic = header.magic.rotate_left(16)),
    fault("magic-half-micro-half-nano", |header, random| header.magic = random.pick(&[0xa1b2_c34d, 0xa1b2_3cd4])),
    fault("magic-of-pcapng", |header, _| header.magic = 0x0a0d_0d0a),
    fault("version-2.3", |header, _| header.minor = 3),
    fault("version-2.5", |header, _| header.minor = 5),
    fault("version-1.4", |header, _| header.major = 1),
    fault("version-3.4", |header, _| header.major = 3),
    fault("version-4.2", |header, _| (header.major, header.minor) = (4, 2)),
    fault("version-0.0", |header, _| (header.major, header.minor) = (0, 0)),
    fault("version-major-in-other-order", |header, _| header.major = header.major.swap_bytes()),
    fault("version-minor-in-other-order", |header, _| header.minor = header.minor.swap_bytes()),
    fault("version-major-right-in-low-byte", |header, random| header.major |= high_bit(random)),
    fault("version-minor-right-in-low-byte", |header, random| header.minor |= high_bit(random)),
    fault("link-0", |header, _| header.link = 0),
    fault("link-2", |header, _| header.link = 2),
    fault("link-101", |header, _| header.link = 101),
    fault("link-113", |header, _| header.link = 113),
    fault("link-right-in-low-byte", |header, random| header.link |= u32::from(high_bit(random))),
    fault("link-right-in-low-half", |header, random| header.link |= u32::from(high_bit(random)) << 8),
    // how a capture may say that frames end with 4 bytes of a checksum
    fault("link-with-checksum-length", |header, _| header.link |= 0x2400_0000),
    fault("link-top-bit", |header, _| header.link |= 0x8000_0000),
    fault("link-halves-swapped", |header, _| header.link = header.link.rotate_left(16)),
    fault("link-in-other-order", |header, _| header.link = header.link.swap_bytes()),
];

/// One of the eight bits above the lowest eight.
fn high_bit(random: &mut Random) -> u16 {
    1 << random.between(8, 15)
}

/// Brings the fault into a capture of this form.
pub fn spoil(capture: &mut [u8], form: Form, fault: Fault, random: &mut Random) {
    let mut bytes = [0; FILE_HEADER];
    bytes.copy_from_slice(&capture[..FILE_HEADER]);
    assert_eq!(Form::of(&bytes), Some(form), "{}: good before", fault.name);
    let mut header = Header::read(&bytes, form.order);
    (fault.bring)(&mut header, random);
    bytes = header.bytes(form.order);
    assert_eq!(Form::of(&bytes), None, "{}: bad after", fault.name);
    capture[..FILE_HEADER].copy_from_slice(&bytes);
}
