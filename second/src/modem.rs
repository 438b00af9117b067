//! The modem's table: rules of either kind of IP, each for a thing that frames or conversations of IPv6 are to show (02, 2/12).

mod wish;

pub use wish::{chain, Compared, Half, Held, Meeting, Protocol, Wish, HALVES};

use crate::layers::{Kind, DEST_OPTIONS, FRAGMENT, HOP_BY_HOP, PROTOCOL_TCP, PROTOCOL_UDP, ROUTING};
use crate::random::Random;
use crate::table::{set, Action, Prefix, Prefix6, Rule, State, Table, LONGEST_IDLE, SOCKETS};
use crate::world::{table_of, to_port};

const EXTENSIONS: [u8; 3] = [HOP_BY_HOP, ROUTING, DEST_OPTIONS];
pub const ICMPV6: u8 = 58;
/// The lengths of prefixes: the ends, and about the middle of the address.
pub const LENGTHS: [u8; 7] = [0, 1, 63, 64, 65, 127, 128];
/// What the rules with a protocol setting ask for; the last four agree with nothing.
const PROTOCOLS: [u8; 7] = [PROTOCOL_TCP, PROTOCOL_UDP, ICMPV6, HOP_BY_HOP, ROUTING, FRAGMENT, DEST_OPTIONS];
const NETWORK: u128 = 0x2001_0db8_0000_0001_8000_0000_0000_0001;
/// The rule at a place is for this port and so many more, so that no rule takes another's frames.
const FIRST_PORT: u16 = 20_000;

/// The places of the rules: one for TCP, which fits best where no transport is shown, one of each length for the source and for
/// the destination, one of each protocol, then one each.
const SEGMENTS: usize = 0;
const SOURCES: usize = SEGMENTS + 1;
const DESTINATIONS: usize = SOURCES + LENGTHS.len();
const BY_PROTOCOL: usize = DESTINATIONS + LENGTHS.len();
const ANY_IPV4: usize = BY_PROTOCOL + PROTOCOLS.len();
const UDP_IPV4: usize = ANY_IPV4 + 1;
const UDP_IPV6: usize = UDP_IPV4 + 1;
const MESSAGES: usize = UDP_IPV6 + 1;
/// Tracked, whatever the kind of IP.
pub const TRACKED: usize = MESSAGES + 1;
const RULES: usize = TRACKED + 1;

/// The states: all rules active, or the one that asks for UDP by IPv4, or by IPv6, alone.
pub const ALL: u8 = 0;
pub const IPV4_ALONE: u8 = 1;
pub const IPV6_ALONE: u8 = 2;

pub fn table(random: &mut Random) -> Table {
    let marks = [(1 << RULES) - 1, 1 << UDP_IPV4, 1 << UDP_IPV6];
    let states = marks.map(|marks| State { default: Action::Block, marks });
    table_of(RULES, 100, &states, |place| rule(place, random))
}

fn rule(place: usize, random: &mut Random) -> Rule {
    let to_port = to_port(FIRST_PORT + place as u16, random);
    let ports = to_port.set;
    match place {
        SEGMENTS => Rule { kind: Kind::Tcp, set: ports, ..to_port },
        SOURCES..DESTINATIONS => {
            let source6 = Prefix6 { address: NETWORK, length: LENGTHS[place - SOURCES] };
            Rule { source6, set: ports | set::SOURCE6, ..to_port }
        }
        DESTINATIONS..BY_PROTOCOL => {
            let destination6 = Prefix6 { address: NETWORK, length: LENGTHS[place - DESTINATIONS] };
            Rule { destination6, action: Action::Block, set: ports | set::DESTINATION6, ..to_port }
        }
        // One address to a protocol, and no kind of transport.
        BY_PROTOCOL..ANY_IPV4 => {
            let destination6 = Prefix6 { address: NETWORK + place as u128, length: 128 };
            let protocol6 = PROTOCOLS[place - BY_PROTOCOL];
            Rule { destination6, protocol6, set: set::DESTINATION6 | set::PROTOCOL6, ..to_port }
        }
        ANY_IPV4 => Rule { source: Prefix { address: 0, length: 0 }, set: ports | set::SOURCE, ..to_port },
        UDP_IPV4 => Rule { protocol: PROTOCOL_UDP, set: ports | set::PROTOCOL, ..to_port },
        UDP_IPV6 => Rule { protocol6: PROTOCOL_UDP, set: ports | set::PROTOCOL6, ..to_port },
        MESSAGES => Rule { set: ports | set::SERVICE, ..to_port },
        _ => {
            let numbers = [4; SOCKETS];
            Rule { kind: Kind::Tcp, places: 4, numbers, idle: LONGEST_IDLE, set: ports | set::TRACKING, ..to_port }
        }
    }
}
