//! Table T of 01's worked set, and some of its frames.

use crate::image::{read_table, TABLE_IMAGE};
use crate::layers::Kind;
use crate::table::{set, Action, Prefix, Range, Rule, State, Table};

fn rule(id: u16, action: Action, settings: u32) -> Rule {
    Rule { id, action, set: settings, ..read_table(&[0; TABLE_IMAGE]).rules[0] }
}

/// Table T: default block, all four active.
pub fn table_t() -> Table {
    let mut table = read_table(&[0; TABLE_IMAGE]);
    let someip = set::ETHER | set::SOURCE | set::KIND | set::DEST_PORTS | set::SERVICE | set::MESSAGE;
    table.rules[0] = Rule {
        ether: 0x0800,
        source: Prefix { address: 0x0a00_0000, length: 8 },
        kind: Kind::Udp,
        dports: Range { low: 30_501, high: 30_501 },
        service: 0x1000,
        message: 0x80,
        ..rule(10, Action::Allow, someip)
    };
    table.rules[1] = Rule {
        kind: Kind::Tcp,
        sports: Range { low: 443, high: 443 },
        places: 2,
        idle: 1_000,
        numbers: [2, 2],
        ..rule(20, Action::Allow, set::KIND | set::SOURCE_PORTS | set::TRACKING)
    };
    table.rules[2] = Rule { ether: 0x0806, size: 2, refill: 1, ..rule(30, Action::Allow, set::ETHER | set::RATE) };
    table.rules[3] = Rule {
        kind: Kind::Udp,
        dports: Range { low: 0, high: 1_023 },
        ..rule(40, Action::Block, set::KIND | set::DEST_PORTS)
    };
    table.rule_count = 4;
    table.state_count = 1;
    table.states[0] = State { default: Action::Block, marks: 0b1111 };
    table
}

const FRAME_A: &str = "021bbbbbbbbb021aaaaaaaaa08004500003a00010000401166b00a0000010a010001\
771b77250026e8b91000011100000016000100030101800034333937413038423735303034 36";

pub fn frame_a() -> Vec<u8> {
    let digits: Vec<u32> = FRAME_A.chars().filter_map(|c| c.to_digit(16)).collect();
    digits.chunks_exact(2).map(|pair| (pair[0] * 16 + pair[1]) as u8).collect()
}

/// A frame of ether type 0x0806.
pub fn arp() -> Vec<u8> {
    let mut frame = vec![0xff; 6];
    frame.extend([2, 0, 0, 0, 0, 7, 8, 6]);
    frame.extend([0; 28]);
    frame
}

/// A TCP frame of 10.0.0.9 to 10.1.0.1 from port 443, with a valid IP checksum.
pub fn tcp(dport: u16, flags: u8) -> Vec<u8> {
    let mut frame = vec![2, 0, 0, 0, 0, 1, 2, 0, 0, 0, 0, 2, 8, 0];
    frame.extend([0x45, 0, 0, 40, 0, 1, 0, 0, 64, 6, 0, 0, 10, 0, 0, 9, 10, 1, 0, 1]);
    frame.extend([443u16.to_be_bytes(), dport.to_be_bytes()].concat());
    frame.extend([0, 0, 0, 1, 0, 0, 0, 2, 0x50, flags, 1, 0, 0, 0, 0, 0]);
    let sum: u32 = frame[14..34].chunks(2).map(|w| u32::from(w[0]) << 8 | u32::from(w[1])).sum();
    let folded = (sum & 0xffff) + (sum >> 16);
    let check = !((folded & 0xffff) + (folded >> 16)) as u16;
    frame[24..26].copy_from_slice(&check.to_be_bytes());
    frame
}
