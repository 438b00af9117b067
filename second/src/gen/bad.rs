//! Bad tables, bad records, and good records near every end.

use super::*;

impl<W: Write> Gen<W> {
    /// Good records near every end: levels, counts and ages; then frames that push them on.
    pub(super) fn high_records(&mut self) -> io::Result<()> {
        let mut records = self.records.clone();
        let near = |random: &mut Random| u32::MAX - random.pick(&[1, 1, 2]);
        records.last = self.now;
        records.default.passed = near(&mut self.random);
        records.default.blocked = near(&mut self.random);
        for place in 0..RULES {
            // Counts are not looked at, not even where no rule stands.
            records.counts[place].passed = near(&mut self.random);
            records.counts[place].blocked = near(&mut self.random);
            if place < self.table.rules().len() {
                self.high_rule(&mut records, place);
            }
        }
        self.put_records(&records)?;
        self.check()?.expect("high records are good");
        self.switch(0)?;
        for _ in 0..12 {
            let Some(place) = self.some_place(|rule| rule.has(set::RATE)) else { break };
            self.any_socket();
            self.judge_at(place)?;
        }
        self.print()?;
        // From one end of the clock to the other, with no rule active: refill times elapsed leaves 64 bits.
        self.switch(1)?;
        for reading in [0, 0, u64::MAX, u64::MAX, u64::MAX] {
            self.now = reading;
            self.aimed()?;
        }
        self.print()
    }

    fn high_rule(&mut self, records: &mut Records, place: usize) {
        let rule = self.table.rules[place];
        if rule.has(set::RATE) {
            // The first one is at the highest on both sockets, so that a short stream too meets it.
            let first = !records.levels[..place].iter().any(|[level, _]| *level > HIGHEST_LEVEL / 2);
            records.levels[place] = std::array::from_fn(|_| {
                let below = self.random.pick(&[0, 1, 999, 1_000, 1_001, 3_000]);
                HIGHEST_LEVEL - if first { 0 } else { below }
            });
        }
        if rule.has(set::TRACKING) {
            self.high_places(&rule, records, place);
        }
    }

    /// Conversations of either socket, as many as it may hold, in every place that is left for one.
    fn high_places(&mut self, rule: &Rule, records: &mut Records, place: usize) {
        (0..PLACES).for_each(|slot| records.free(place, slot));
        for slot in 0..usize::from(rule.places) {
            let draft = aim(rule, &mut self.random);
            let quadruple = Quadruple::new(draft.addresses(), draft.sport, draft.dport);
            let sockets = below_number(rule, records, place);
            if sockets.is_empty() {
                return;
            }
            let socket = self.random.pick(&sockets);
            if records.find(place, socket, quadruple).is_some() {
                continue;
            }
            let age = rule.idle - 1 - self.random.below(rule.idle.into()) as u32 / 2;
            let state = self.random.pick(&[OPENING, RUNNING, CLOSING]);
            records.hold(place, slot, state, socket, Conversation { quadruple, age });
        }
    }

    pub(super) fn bad_table(&mut self, good: &Table) -> io::Result<()> {
        let bad = self.bad_tables[self.table_fault % self.bad_tables.len()];
        self.table_fault += 1;
        let mut table = good.clone();
        let refused = bad.spoil(&mut table, &mut self.random);
        self.put_table(&table)?;
        assert_eq!(self.check()?, Err(refused), "{}", bad.name());
        self.reach.hit(&bad.name());
        if self.random.chance(25) {
            self.fresh(self.now)?;
        }
        // Not each time: the judged calls are wanted for good tables.
        if self.random.chance(30) {
            self.other_calls()?;
        }
        Ok(())
    }

    /// Calls that must refuse in their order, whatever else is wrong with what they are given; the first that is refused 4, and the first
    /// that is refused 5, on a socket that there is not.
    fn other_calls(&mut self) -> io::Result<()> {
        if self.random.chance(40) {
            let state = self.random.pick(&[0, 0, 9]);
            self.switch(state)?;
        }
        if self.random.chance(30) {
            self.odd_length(false)?;
        }
        let refused = records::check(&self.table, &self.records).err();
        let unseen = refused.is_some_and(|refused| self.reach.count(&before_9(refused)) == 0);
        if unseen || self.random.chance(20) {
            self.no_socket();
        }
        if unseen || self.random.chance(30) {
            self.aimed()?;
        }
        self.any_socket();
        Ok(())
    }

    /// From fresh records, conversations of either socket, of some age and in more than one place, and levels: what another table can
    /// make bad.
    pub(super) fn warm_up(&mut self) -> io::Result<()> {
        self.now = self.now.min(u64::MAX - 100);
        self.fresh(self.now)?;
        let rules: Vec<Rule> = self.table.rules().to_vec();
        let two = rules.iter().filter(|rule| rule.id == STEADY || rule.has(set::RATE)).take(2);
        for (turn, rule) in two.cycle().take(10).enumerate() {
            self.now += self.random.below(2);
            self.socket = (turn / 2 % SOCKETS) as u8;
            self.aim_socket(rule);
            let draft = Draft { flags: SYN, chain: vec![], ..aim(rule, &mut self.random) };
            let frame = draft.bytes(&mut self.random);
            self.judge_in(&frame, SPACE)?;
        }
        Ok(())
    }

    /// Bad records: by another table put under them, or by an image, which is the longer of the two.
    pub(super) fn bad_records(&mut self, good: &Table, tables: u64) -> io::Result<()> {
        let fault = RECORD_FAULTS[self.record_fault % RECORD_FAULTS.len()];
        self.record_fault += 1;
        if records::check(good, &self.records).is_err() {
            self.fresh(self.now)?;
        }
        if fault == "state-missing" && self.records.state == 0 {
            self.put_back(good)?;
            self.switch(1)?;
        }
        let mut table = good.clone();
        let by_table = undercut_records(&mut table, &self.records, fault).is_some() && table.check().is_ok();
        if by_table && !(tables > 20 && self.random.chance(20)) {
            self.put_table(&table)?;
            self.undercut = true;
        } else {
            self.put_back(good)?;
            let mut records = self.records.clone();
            if spoil_records(&mut records, good, fault, &mut self.random).is_none() {
                // This table gives no room for the fault; another one will.
                return Ok(());
            }
            self.put_records(&records)?;
        }
        assert_eq!(self.check()?, Err(Refusal::BadRecord), "record fault {fault}");
        self.reach.hit(&format!("record-fault-{fault}"));
        self.other_calls()?;
        self.print()
    }
}
