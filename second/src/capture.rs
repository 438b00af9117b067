//! Classic pcap captures (02, 4/12): the four forms of the file, its header and those of its records, read by parts and written.

use std::io::{self, Error, ErrorKind, Read};

use crate::layers::LONGEST;

pub const FILE_HEADER: usize = 24;
pub const RECORD_HEADER: usize = 16;
/// So many bytes of a record are kept: a longer frame is refused for its length alone, so what follows is passed over.
pub const KEPT: usize = LONGEST + 1;
const VERSION: (u16, u16) = (2, 4);
const ETHERNET: u32 = 1;

/// The order of the bytes in each field.
#[derive(Clone, Copy, PartialEq, Eq, Debug)]
pub enum Order {
    Big,
    Little,
}

impl Order {
    fn u16(self, bytes: &[u8], at: usize) -> u16 {
        let field = [bytes[at], bytes[at + 1]];
        match self {
            Order::Big => u16::from_be_bytes(field),
            Order::Little => u16::from_le_bytes(field),
        }
    }

    fn u32(self, bytes: &[u8], at: usize) -> u32 {
        let field = [bytes[at], bytes[at + 1], bytes[at + 2], bytes[at + 3]];
        match self {
            Order::Big => u32::from_be_bytes(field),
            Order::Little => u32::from_le_bytes(field),
        }
    }

    fn two(self, number: u16) -> [u8; 2] {
        match self {
            Order::Big => number.to_be_bytes(),
            Order::Little => number.to_le_bytes(),
        }
    }

    fn four(self, number: u32) -> [u8; 4] {
        match self {
            Order::Big => number.to_be_bytes(),
            Order::Little => number.to_le_bytes(),
        }
    }
}

/// What the fraction of a second counts.
#[derive(Clone, Copy, PartialEq, Eq, Debug)]
pub enum Precision {
    Micro,
    Nano,
}

impl Precision {
    pub fn magic(self) -> u32 {
        match self {
            Precision::Micro => 0xa1b2_c3d4,
            Precision::Nano => 0xa1b2_3c4d,
        }
    }

    pub fn per_ms(self) -> u32 {
        match self {
            Precision::Micro => 1_000,
            Precision::Nano => 1_000_000,
        }
    }
}

#[derive(Clone, Copy, PartialEq, Eq, Debug)]
pub struct Form {
    pub order: Order,
    pub precision: Precision,
}

pub const FORMS: [Form; 4] = [
    Form { order: Order::Big, precision: Precision::Micro },
    Form { order: Order::Big, precision: Precision::Nano },
    Form { order: Order::Little, precision: Precision::Micro },
    Form { order: Order::Little, precision: Precision::Nano },
];

impl Form {
    /// The form of a capture with this header; none where it is no good one.
    pub fn of(header: &[u8; FILE_HEADER]) -> Option<Form> {
        FORMS.into_iter().find(|form| Header::read(header, form.order).is_good(form.precision))
    }
}

/// The fields of the file header. Zone, accuracy and snap length are not looked at.
#[derive(Clone, Copy, PartialEq, Eq, Debug)]
pub struct Header {
    pub magic: u32,
    pub major: u16,
    pub minor: u16,
    pub zone: u32,
    pub accuracy: u32,
    pub snap: u32,
    pub link: u32,
}

impl Header {
    pub fn good(precision: Precision) -> Header {
        let (major, minor) = VERSION;
        Header { magic: precision.magic(), major, minor, zone: 0, accuracy: 0, snap: 65_535, link: ETHERNET }
    }

    pub fn read(bytes: &[u8; FILE_HEADER], order: Order) -> Header {
        Header {
            magic: order.u32(bytes, 0),
            major: order.u16(bytes, 4),
            minor: order.u16(bytes, 6),
            zone: order.u32(bytes, 8),
            accuracy: order.u32(bytes, 12),
            snap: order.u32(bytes, 16),
            link: order.u32(bytes, 20),
        }
    }

    pub fn bytes(&self, order: Order) -> [u8; FILE_HEADER] {
        let mut bytes = [0; FILE_HEADER];
        bytes[..4].copy_from_slice(&order.four(self.magic));
        bytes[4..6].copy_from_slice(&order.two(self.major));
        bytes[6..8].copy_from_slice(&order.two(self.minor));
        for (at, field) in [self.zone, self.accuracy, self.snap, self.link].into_iter().enumerate() {
            bytes[8 + 4 * at..12 + 4 * at].copy_from_slice(&order.four(field));
        }
        bytes
    }

    fn is_good(&self, precision: Precision) -> bool {
        self.magic == precision.magic() && (self.major, self.minor) == VERSION && self.link == ETHERNET
    }
}

/// The header of a record.
#[derive(Clone, Copy, PartialEq, Eq, Debug)]
pub struct Head {
    pub seconds: u32,
    pub fraction: u32,
    pub stored: u32,
    pub wire: u32,
}

impl Head {
    pub fn read(bytes: &[u8; RECORD_HEADER], order: Order) -> Head {
        Head {
            seconds: order.u32(bytes, 0),
            fraction: order.u32(bytes, 4),
            stored: order.u32(bytes, 8),
            wire: order.u32(bytes, 12),
        }
    }

    pub fn bytes(&self, order: Order) -> [u8; RECORD_HEADER] {
        let mut bytes = [0; RECORD_HEADER];
        for (at, field) in [self.seconds, self.fraction, self.stored, self.wire].into_iter().enumerate() {
            bytes[4 * at..4 * at + 4].copy_from_slice(&order.four(field));
        }
        bytes
    }

    /// Rounded down; the fraction is taken as it stands, even above a second.
    pub fn milliseconds(&self, precision: Precision) -> u64 {
        u64::from(self.seconds) * 1_000 + u64::from(self.fraction / precision.per_ms())
    }
}

/// What comes next in a capture: a record, one that the end cuts short, or the end.
pub enum Next<T> {
    Record(T),
    Cut,
    End,
}

/// A capture behind its file header.
pub struct Capture<R> {
    pub header: Header,
    pub form: Form,
    pub input: R,
    kept: [u8; KEPT],
}

impl<R: Read> Capture<R> {
    /// None where the file header is short or no good one.
    pub fn open(mut input: R) -> io::Result<Option<Capture<R>>> {
        let mut header = [0; FILE_HEADER];
        if fill(&mut input, &mut header)? < FILE_HEADER {
            return Ok(None);
        }
        Ok(Form::of(&header).map(|form| {
            let header = Header::read(&header, form.order);
            Capture { header, form, input, kept: [0; KEPT] }
        }))
    }

    /// The same, for whoever can do nothing without.
    pub fn open_good(input: R) -> io::Result<Capture<R>> {
        Capture::open(input)?.ok_or_else(|| Error::new(ErrorKind::InvalidData, "no classic capture of Ethernet frames"))
    }

    /// The next record's header; its bytes follow.
    pub fn head(&mut self) -> io::Result<Next<Head>> {
        let mut head = [0; RECORD_HEADER];
        Ok(match fill(&mut self.input, &mut head)? {
            0 => Next::End,
            RECORD_HEADER => Next::Record(Head::read(&head, self.form.order)),
            _ => Next::Cut,
        })
    }

    /// The next record, with those of its bytes that are kept.
    pub fn record(&mut self) -> io::Result<Next<(Head, &[u8])>> {
        let head = match self.head()? {
            Next::Record(head) => head,
            Next::Cut => return Ok(Next::Cut),
            Next::End => return Ok(Next::End),
        };
        let stored = u64::from(head.stored);
        let kept = stored.min(KEPT as u64) as usize;
        let there = fill(&mut self.input, &mut self.kept[..kept])?;
        let beyond = stored - kept as u64;
        if there < kept || beyond > 0 && io::copy(&mut self.input.by_ref().take(beyond), &mut io::sink())? < beyond {
            return Ok(Next::Cut);
        }
        Ok(Next::Record((head, &self.kept[..kept])))
    }
}

/// Reads until the bytes are full or the input ends; gives how many there were.
fn fill(input: &mut impl Read, bytes: &mut [u8]) -> io::Result<usize> {
    let mut filled = 0;
    while filled < bytes.len() {
        match input.read(&mut bytes[filled..]) {
            Ok(0) => break,
            Ok(more) => filled += more,
            Err(error) if error.kind() == ErrorKind::Interrupted => {}
            Err(error) => return Err(error),
        }
    }
    Ok(filled)
}
