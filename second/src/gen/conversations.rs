//! Segments on tracked rules, so that every set of flags meets every held state.

use super::*;

impl<W: Write> Gen<W> {
    /// A tracked rule, mostly the steady one.
    fn tracked_place(&mut self) -> io::Result<Option<usize>> {
        let steady = self.table.rules().iter().position(|rule| rule.id == STEADY);
        let chosen = if self.random.chance(70) { steady } else { self.some_place(|rule| rule.has(set::TRACKING)) };
        if chosen == steady && self.records.state != 0 && self.random.chance(70) {
            self.switch(0)?;
        }
        Ok(chosen)
    }

    /// A segment on a tracked rule, toward the set of flags and held state that came least often so far.
    pub(super) fn tracked(&mut self) -> io::Result<()> {
        let Some(place) = self.tracked_place()? else {
            return self.aimed();
        };
        let (wanted, flags) = self.least_reached(place);
        let (held, flags) = self.toward(place, wanted, flags);
        let rule = self.table.rules[place];
        let mut draft = aim(&rule, &mut self.random);
        draft.kind = Kind::Tcp;
        draft.flags = flags;
        self.aim_socket(&rule);
        if let Some(slot) = self.slot_held_as(place, held) {
            let of = self.records.conversations[place][slot].quadruple;
            draft.set_addresses(of.addresses);
            (draft.sport, draft.dport) = (of.sport(), of.dport());
            self.socket_of(place, slot);
        } else if flags & SYN != 0 {
            self.socket_with_room(place);
        }
        if self.random.chance(5) {
            return self.damaged(draft);
        }
        let frame = draft.bytes(&mut self.random);
        self.judge(&frame)
    }

    /// Whether every set of flags has met every held state.
    pub(super) fn all_flags_seen(&self) -> bool {
        all_flags().iter().all(|(held, flags)| self.reach.count(&flags_name(*held, *flags)) > 0)
    }

    /// Among the cases that came least often, mostly one that can come now.
    fn least_reached(&mut self, place: usize) -> (u8, u8) {
        let all = all_flags();
        let count = |&(held, flags): &(u8, u8)| self.reach.count(&flags_name(held, flags));
        let least = all.iter().map(count).min().unwrap_or(0);
        let rare: Vec<(u8, u8)> = all.iter().copied().filter(|case| count(case) == least).collect();
        let now = |held: u8| held == FREE || self.records.held[place].contains(&held);
        let ready: Vec<(u8, u8)> = rare.iter().copied().filter(|(held, _)| now(*held)).collect();
        let from = if ready.is_empty() || self.random.chance(30) { rare } else { ready };
        self.random.pick(&from)
    }

    fn slot_held_as(&mut self, place: usize, held: u8) -> Option<usize> {
        let slots: Vec<usize> = (0..PLACES).filter(|slot| self.records.held[place][*slot] == held).collect();
        if held == FREE || slots.is_empty() {
            None
        } else {
            Some(self.random.pick(&slots))
        }
    }

    /// The segment to send now, and on which conversation, so as to come to the wanted one.
    fn toward(&mut self, place: usize, wanted: u8, flags: u8) -> (u8, u8) {
        let has = |held: u8| self.records.held[place].contains(&held);
        let rule = &self.table.rules[place];
        let full = self.records.first_free(place, rule.places).is_none()
            || below_number(rule, &self.records, place).is_empty();
        if wanted == FREE || has(wanted) {
            (wanted, flags)
        } else if wanted != OPENING && has(OPENING) {
            (OPENING, if wanted == RUNNING { ACK } else { FIN | ACK })
        } else if wanted == CLOSING && has(RUNNING) {
            (RUNNING, FIN | ACK)
        } else if full && self.random.chance(60) {
            (self.random.pick(&[OPENING, RUNNING, CLOSING]), self.random.pick(&[RST, RST | ACK]))
        } else {
            (FREE, self.random.pick(&[SYN, SYN | ACK]))
        }
    }
}

/// Each held state with each set of flags.
fn all_flags() -> Vec<(u8, u8)> {
    (0..4).flat_map(|held| flag_sets().map(move |flags| (held, flags))).collect()
}
