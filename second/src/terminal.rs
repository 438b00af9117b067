//! The terminal's table: rules by socket, with buckets and with numbers of either socket, each for a thing that frames of two sockets
//! are to show (02, 6/12).

mod sharing;

pub use sharing::{Room, Sharing};

use crate::layers::Kind;
use crate::random::Random;
use crate::table::{set, Action, Rule, State, Table, SOCKETS};
use crate::world::{table_of, to_port};

/// The rule at a place is for this port and so many more, so that no rule takes another's frames.
const FIRST_PORT: u16 = 22_000;

/// The places of the rules: for one port one that asks for socket 0 and one that asks for socket 1, which blocks; one that asks for
/// socket 1; one with a bucket; then those that track: whose numbers together are below the places, as many, or above them, and one
/// for each socket whose number is 0.
pub const ASKS_0: usize = 0;
const SHUTS_1: usize = 1;
pub const ASKS_1: usize = 2;
pub const LIMITED: usize = 3;
pub const BELOW: usize = 4;
pub const AT: usize = 5;
pub const ABOVE: usize = 6;
pub const NONE: usize = 7;
const RULES: usize = NONE + SOCKETS;

/// The states: all rules active, or one that asks for socket 0, or for socket 1, alone.
pub const ALL: u8 = 0;
pub const ALONE: u8 = 1;

/// In ms: what goes by before something is shown, so that no conversation is held and no bucket has a level any more.
pub const PAUSE: u64 = 50;
const IDLE: u32 = 40;
/// Frames a second, so that a pause lets more than a few run out.
const REFILL: u16 = 100;

pub fn table(random: &mut Random) -> Table {
    let marks = [(1 << RULES) - 1, 1 << ASKS_0, 1 << ASKS_1];
    let states = marks.map(|marks| State { default: Action::Block, marks });
    let mut table = table_of(RULES, 500, &states, |place| rule(place, random));
    table.rules[SHUTS_1].dports = table.rules[ASKS_0].dports;
    table
}

fn rule(place: usize, random: &mut Random) -> Rule {
    let to_port = to_port(FIRST_PORT + place as u16, random);
    let ports = to_port.set;
    let one_or_two = random.pick(&[[1, 2], [2, 1]]);
    match place {
        ASKS_0 => Rule { socket: 0, set: ports | set::SOCKET, ..to_port },
        SHUTS_1 => Rule { socket: 1, action: Action::Block, set: ports | set::SOCKET, ..to_port },
        ASKS_1 => Rule { socket: 1, set: ports | set::SOCKET, ..to_port },
        LIMITED => Rule { size: 1, refill: REFILL, set: ports | set::RATE, ..to_port },
        BELOW => tracked(random.pick(&[4, 5, 8]), one_or_two, to_port),
        AT => tracked(3, one_or_two, to_port),
        ABOVE => tracked(2, [2; SOCKETS], to_port),
        _ => {
            let mut numbers = [2; SOCKETS];
            numbers[place - NONE] = 0;
            tracked(2, numbers, to_port)
        }
    }
}

fn tracked(places: u8, numbers: [u8; SOCKETS], to_port: Rule) -> Rule {
    Rule { kind: Kind::Tcp, places, numbers, idle: IDLE, set: to_port.set | set::TRACKING, ..to_port }
}
