//! The numbers of a rule's settings, by which a refused table names one (02, 1/12). They are those of the case stream's page: 02 gives none. A number never changes once given.

pub const ID: u8 = 0;
pub const DEST_MAC: u8 = 1;
pub const SOURCE_MAC: u8 = 2;
pub const VLAN: u8 = 3;
pub const PRIORITY: u8 = 4;
pub const ETHER: u8 = 5;
pub const SOURCE: u8 = 6;
pub const DESTINATION: u8 = 7;
pub const PROTOCOL: u8 = 8;
pub const KIND: u8 = 9;
pub const SOURCE_PORTS: u8 = 10;
pub const DEST_PORTS: u8 = 11;
pub const SERVICE: u8 = 12;
pub const METHOD: u8 = 13;
pub const VERSION: u8 = 14;
pub const MESSAGE: u8 = 15;
pub const CODE: u8 = 16;
pub const SIZE: u8 = 17;
pub const REFILL: u8 = 18;
pub const PLACES: u8 = 19;
pub const IDLE: u8 = 20;
pub const SOURCE6: u8 = 21;
pub const DESTINATION6: u8 = 22;
pub const PROTOCOL6: u8 = 23;
pub const SOCKET: u8 = 24;
pub const NUMBER0: u8 = 25;
pub const NUMBER1: u8 = 26;
pub const ACTION: u8 = 28;
/// The rule count or the states are at fault, and no setting of a rule.
pub const NONE: u8 = 255;

const LINK: [u8; 6] = [DEST_MAC, SOURCE_MAC, VLAN, PRIORITY, ETHER, SOCKET];
const IP: [u8; 6] = [SOURCE, DESTINATION, PROTOCOL, SOURCE6, DESTINATION6, PROTOCOL6];
const TRANSPORT: [u8; 3] = [KIND, SOURCE_PORTS, DEST_PORTS];
const SOMEIP: [u8; 5] = [SERVICE, METHOD, VERSION, MESSAGE, CODE];
pub const TRACKING: [u8; 4] = [PLACES, IDLE, NUMBER0, NUMBER1];

/// All settings in 01's order, by which the first at fault is named: not the order of the numbers.
pub fn order() -> Vec<u8> {
    [&[ID, ACTION][..], &LINK, &IP, &TRANSPORT, &SOMEIP, &[SIZE, REFILL], &TRACKING].concat()
}
