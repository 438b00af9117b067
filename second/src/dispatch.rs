//! The dispatch's table: rules for every choice of SOME/IP settings, each for a thing that datagrams of several messages are to show
//! (02, 3/12).

mod bundle;

pub use bundle::{Agreement, Bundle, AGREEMENTS};

use crate::layers::Kind;
use crate::random::Random;
use crate::table::{set, Action, Rule, State, Table};
use crate::world::{table_of, to_port, SOMEIPS};

/// The rule at a place is for this port and so many more, so that no rule takes another's frames.
const FIRST_PORT: u16 = 21_000;
/// A station that is none of the world's.
const STATION: u64 = 0x0200_0000_0312;

/// The places of the rules: one for each choice of the five settings, from none to all, at the place that the choice has as a number;
/// then one with a bucket, one that blocks, two for one port, of which one allows a service and the other blocks another, and one
/// for a station whatever the transport.
const CHOICES: usize = 1 << SOMEIPS.len();
const LIMITED: usize = CHOICES;
const SHUT: usize = LIMITED + 1;
const WANTED: usize = SHUT + 1;
const UNWANTED: usize = WANTED + 1;
const STATIONED: usize = UNWANTED + 1;
const RULES: usize = STATIONED + 1;

/// The states: all rules active, and a default that blocks or allows.
pub const BLOCKING: u8 = 0;
pub const ALLOWING: u8 = 1;

pub fn table(random: &mut Random) -> Table {
    let states = [Action::Block, Action::Allow].map(|default| State { default, marks: (1 << RULES) - 1 });
    let mut table = table_of(RULES, 300, &states, |place| rule(place, random));
    let (wanted, unwanted) = (table.rules[WANTED], &mut table.rules[UNWANTED]);
    (unwanted.dports, unwanted.service) = (wanted.dports, wanted.service ^ 1);
    table
}

fn rule(place: usize, random: &mut Random) -> Rule {
    let to_port = to_port(FIRST_PORT + place as u16, random);
    let ports = to_port.set;
    match place {
        // A bucket that never drains, for one datagram.
        LIMITED => Rule { size: 1, refill: 0, set: ports | set::SOMEIP | set::RATE, ..to_port },
        SHUT => Rule { action: Action::Block, set: ports | set::SERVICE | set::METHOD, ..to_port },
        WANTED => Rule { set: ports | set::SERVICE, ..to_port },
        UNWANTED => Rule { action: Action::Block, set: ports | set::SERVICE, ..to_port },
        STATIONED => Rule { dst: STATION, set: set::DEST_MAC | set::SERVICE, ..to_port },
        choice => Rule { set: ports | chosen(choice), ..to_port },
    }
}

/// The settings of a choice.
fn chosen(choice: usize) -> u32 {
    SOMEIPS.iter().enumerate().filter(|(at, _)| choice >> at & 1 != 0).fold(0, |set, (_, setting)| set | setting)
}
