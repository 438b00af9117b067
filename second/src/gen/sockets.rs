//! The socket of each judged call, and the terminal's table: for each thing of two sockets that is named, frames until it is reached.

use super::*;
use crate::modem::chain;
use crate::terminal::{self, Room, ABOVE, ALL, ALONE, ASKS_0, ASKS_1, AT, BELOW, LIMITED, NONE, PAUSE};

/// Sockets that there are not; in the lowest bit each says one that there is.
const NO_SOCKETS: [u8; 6] = [2, 2, 2, 3, 128, 255];

/// The sockets that hold fewer places of a rule than they may.
pub(super) fn below_number(rule: &Rule, records: &Records, place: usize) -> Vec<u8> {
    let held = records.held_by(place);
    (0..SOCKETS).filter(|at| held[*at] < rule.numbers[*at]).map(|at| at as u8).collect()
}

impl<W: Write> Gen<W> {
    /// Says the socket of the judged calls that follow, where another was said last; now and then in vain, or behind another.
    pub(super) fn say_socket(&mut self, socket: u8) -> io::Result<()> {
        let vain = self.random.chance(2);
        if vain && self.random.chance(50) {
            self.output.write_all(&[b'S', self.random.next() as u8])?;
        }
        if vain || socket != self.said {
            self.output.write_all(&[b'S', socket])?;
            self.said = socket;
            self.across.clear();
        }
        Ok(())
    }

    pub(super) fn any_socket(&mut self) {
        self.socket = self.random.below(SOCKETS as u64) as u8;
    }

    /// Mostly the socket of the call before.
    pub(super) fn turn_socket(&mut self) {
        if self.random.chance(35) {
            self.any_socket();
        }
    }

    pub(super) fn no_socket(&mut self) {
        self.socket = self.random.pick(&NO_SOCKETS);
    }

    /// Takes this socket, if the call's is not one that there is not.
    fn take_socket(&mut self, socket: u8) {
        if usize::from(self.socket) < SOCKETS {
            self.socket = socket;
        }
    }

    /// Mostly the socket that the rule asks for.
    pub(super) fn aim_socket(&mut self, rule: &Rule) {
        if rule.has(set::SOCKET) && self.random.chance(85) {
            self.take_socket(rule.socket);
        }
    }

    /// Mostly the socket that holds this place.
    pub(super) fn socket_of(&mut self, place: usize, slot: usize) {
        if self.random.chance(95) {
            self.take_socket(self.records.sockets[place][slot]);
        }
    }

    /// Mostly one that may hold another place of the rule.
    pub(super) fn socket_with_room(&mut self, place: usize) {
        let sockets = below_number(&self.table.rules[place], &self.records, place);
        if !sockets.is_empty() && self.random.chance(92) {
            let socket = self.random.pick(&sockets);
            self.take_socket(socket);
        }
    }

    /// A frame that the rule at this place matches, mostly on the socket that it asks for.
    pub(super) fn judge_at(&mut self, place: usize) -> io::Result<()> {
        let rule = self.table.rules[place];
        self.aim_socket(&rule);
        let frame = aim(&rule, &mut self.random).bytes(&mut self.random);
        self.judge(&frame)
    }

    pub(super) fn terminal(&mut self) -> io::Result<()> {
        let table = terminal::table(&mut self.random);
        self.begin_table(&table)?;
        self.until_shown(Sharing::all(), Sharing::name, Self::share)?;
        self.print()
    }

    fn share(&mut self, sharing: Sharing) -> io::Result<()> {
        self.now += PAUSE;
        match sharing {
            Sharing::Refused(other) => self.refused_9(other),
            Sharing::Stays(_) => self.stays(),
            Sharing::Agrees(socket) => self.on(socket, asks(socket)),
            Sharing::Disagrees(socket) => self.on(1 - socket, asks(socket)),
            Sharing::LinkEvent(socket) => {
                self.switch(ALONE + socket)?;
                self.on(1 - socket, asks(socket))?;
                self.switch(ALL)
            }
            Sharing::OverRate(socket) => self.one_over_rate(socket),
            Sharing::WithinRate(socket) => self.one_over_rate(1 - socket),
            Sharing::BothDrain => self.both_drain(),
            Sharing::NoPlace(Room::AtNumberFree, _) | Sharing::OpenAgain(_) => self.at_numbers(BELOW),
            Sharing::NoPlace(Room::AtNumberFull, _) => self.at_numbers(AT),
            Sharing::NoPlace(Room::BelowNumber, socket) => {
                self.open(1 - socket, ABOVE)?;
                self.begin(socket, ABOVE)
            }
            Sharing::NoPlace(Room::NoNumber, socket) => self.begin(socket, NONE + usize::from(socket)),
            Sharing::UnlikeTwins(_) => self.unlike_twins(),
            Sharing::OtherHolds(socket) => {
                let draft = self.segment(ABOVE);
                self.send_on(1 - socket, &draft, SYN)?;
                self.send_on(socket, &draft, ACK)
            }
            Sharing::OtherEnds(socket) => {
                self.begin(1 - socket, ABOVE)?;
                self.now += PAUSE;
                self.on(socket, LIMITED)
            }
            Sharing::Twins(packet) => {
                let mut draft = self.segment(ABOVE);
                draft.carry(packet);
                self.twins(&draft)
            }
            Sharing::Sum(sum) => self.begin(self.socket, [BELOW, AT, ABOVE][(sum as i8 + 1) as usize]),
        }
    }

    /// A frame on this socket, aimed at the rule at this place.
    fn on(&mut self, socket: u8, place: usize) -> io::Result<()> {
        let draft = self.short_draft(place);
        self.send_on(socket, &draft, draft.flags)
    }

    fn send_on(&mut self, socket: u8, draft: &Draft, flags: u8) -> io::Result<()> {
        self.socket = socket;
        let frame = Draft { flags, ..draft.clone() }.bytes(&mut self.random);
        self.judge_in(&frame, SPACE)
    }

    fn short_draft(&mut self, place: usize) -> Draft {
        let mut draft = aim(&self.table.rules[place], &mut self.random);
        draft.tags.truncate(1);
        draft.messages.truncate(2);
        draft.shorten();
        draft.chain = chain(self.random.pick(&[0, 0, 1, 2]), &mut self.random);
        draft
    }

    /// A segment that the rule at this place decides, of a new conversation.
    fn segment(&mut self, place: usize) -> Draft {
        Draft { sport: self.random.next() as u16, ..self.short_draft(place) }
    }

    fn begin(&mut self, socket: u8, place: usize) -> io::Result<()> {
        let draft = self.segment(place);
        self.send_on(socket, &draft, SYN)
    }

    /// As many conversations of a socket as it may hold under the rule at this place; gives the last.
    fn open(&mut self, socket: u8, place: usize) -> io::Result<Draft> {
        let mut draft = self.segment(place);
        for _ in 0..self.table.rules[place].numbers[usize::from(socket)] {
            draft.sport = draft.sport.wrapping_add(1);
            self.send_on(socket, &draft, SYN)?;
        }
        Ok(draft)
    }

    fn refused_9(&mut self, other: Option<Refusal>) -> io::Result<()> {
        let length = match other {
            Some(Refusal::ShortFrame) => self.random.below(14),
            Some(Refusal::LongFrame) => self.random.between(1_519, 1_600),
            _ => self.random.between(18, 60),
        };
        let space = if other == Some(Refusal::SmallSpace) { self.random.pick(&[0, SPACE - 1]) } else { SPACE };
        let frame = junk(length as usize, &mut self.random);
        self.no_socket();
        self.judge_in(&frame, space)
    }

    /// Socket 1 is said, and stays in force while the table, records and fresh ones come.
    fn stays(&mut self) -> io::Result<()> {
        self.on(1, ASKS_1)?;
        self.put_table(&self.table.clone())?;
        self.on(1, ASKS_1)?;
        self.put_records(&self.records.clone())?;
        self.on(1, ASKS_1)?;
        self.fresh(self.now)?;
        self.on(1, ASKS_1)
    }

    /// Two frames of one socket are over the rate of the bucket, and one of the other is within it.
    fn one_over_rate(&mut self, socket: u8) -> io::Result<()> {
        self.on(socket, LIMITED)?;
        self.on(socket, LIMITED)?;
        self.on(1 - socket, LIMITED)
    }

    fn both_drain(&mut self) -> io::Result<()> {
        self.on(0, LIMITED)?;
        self.on(1, LIMITED)?;
        self.now += self.random.between(1, 5);
        self.on(0, LIMITED)
    }

    /// Both sockets at their numbers; then the last conversation of each once more, and a new one.
    fn at_numbers(&mut self, place: usize) -> io::Result<()> {
        let last = [self.open(0, place)?, self.open(1, place)?];
        for (socket, draft) in [0, 1].into_iter().zip(last) {
            self.send_on(socket, &draft, SYN | ACK)?;
            self.begin(socket, place)?;
        }
        Ok(())
    }

    /// One conversation on both sockets.
    fn twins(&mut self, draft: &Draft) -> io::Result<()> {
        self.send_on(0, draft, SYN)?;
        self.send_on(1, draft, SYN)
    }

    /// Running on one and Opening on the other, so that an open segment passes there alone.
    fn unlike_twins(&mut self) -> io::Result<()> {
        let draft = self.segment(ABOVE);
        self.twins(&draft)?;
        self.send_on(self.socket, &draft, ACK)?;
        self.send_on(0, &draft, SYN)?;
        self.send_on(1, &draft, SYN)
    }
}

/// The rule that asks for this socket and does not block.
fn asks(socket: u8) -> usize {
    [ASKS_0, ASKS_1][usize::from(socket)]
}
