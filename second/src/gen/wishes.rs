//! The modem's table: for each thing of IPv6 that is named, frames until it is reached.

use super::*;
use crate::modem::{self, Held, ALL, HALVES, IPV4_ALONE, IPV6_ALONE, TRACKED};

impl<W: Write> Gen<W> {
    pub(super) fn modem(&mut self) -> io::Result<()> {
        let table = modem::table(&mut self.random);
        self.begin_table(&table)?;
        self.until_shown(Wish::all(), Wish::name, Self::grant)?;
        self.print()
    }

    fn grant(&mut self, wish: Wish) -> io::Result<()> {
        self.turn_socket();
        match wish {
            Wish::Event(event, _) => {
                self.switch(if event == 51 { IPV4_ALONE } else { IPV6_ALONE })?;
                self.wished(wish)?;
                self.switch(ALL)
            }
            Wish::Held(held) => self.hold_two(wish, held),
            Wish::NoFreePlace => self.fill_places(wish),
            Wish::NearlyAlike => self.nearly_alike(wish),
            _ => self.wished(wish),
        }
    }

    fn wished(&mut self, wish: Wish) -> io::Result<()> {
        let frame = wish.draft(&self.table, &mut self.random).bytes(&mut self.random);
        if self.random.chance(40) {
            self.layers(&frame)?;
        }
        self.judge(&frame)
    }

    /// Two conversations of one rule, in places that were freed before.
    fn hold_two(&mut self, wish: Wish, held: Held) -> io::Result<()> {
        let mut draft = wish.draft(&self.table, &mut self.random);
        self.free_places(&draft)?;
        for addresses in self.two_addresses(held) {
            draft.set_addresses(addresses);
            self.send(&draft, SYN)?;
        }
        Ok(())
    }

    fn fill_places(&mut self, wish: Wish) -> io::Result<()> {
        let mut draft = wish.draft(&self.table, &mut self.random);
        while self.records.held[TRACKED][..usize::from(self.table.rules[TRACKED].places)].contains(&FREE)
            && self.left > 0
        {
            let half = self.random.pick(&HALVES);
            let addresses = self.two_addresses(Held::OneBitApart(half))[0];
            draft.set_addresses(addresses);
            self.send(&draft, SYN)?;
        }
        draft.sport ^= 1;
        self.send(&draft, SYN)
    }

    fn send(&mut self, draft: &Draft, flags: u8) -> io::Result<()> {
        let frame = Draft { flags, ..draft.clone() }.bytes(&mut self.random);
        self.judge(&frame)
    }

    fn free_places(&mut self, draft: &Draft) -> io::Result<()> {
        let socket = self.socket;
        for slot in 0..PLACES {
            if self.records.held[TRACKED][slot] == FREE {
                continue;
            }
            let of = self.records.conversations[TRACKED][slot].quadruple;
            let mut reset = Draft { sport: of.sport(), dport: of.dport(), ..draft.clone() };
            reset.set_addresses(of.addresses);
            self.socket = self.records.sockets[TRACKED][slot];
            self.send(&reset, RST)?;
        }
        self.socket = socket;
        Ok(())
    }

    /// Records with both pairs, each on one socket, then a frame of each conversation.
    fn nearly_alike(&mut self, wish: Wish) -> io::Result<()> {
        let half = self.random.pick(&HALVES);
        let [one, other] = self.two_addresses(Held::AlikeButKind);
        let [third, fourth] = self.two_addresses(Held::OneBitApart(half));
        let [pair, other_pair] = std::array::from_fn(|_| self.random.below(SOCKETS as u64) as u8);
        let all = [(one, pair), (third, other_pair), (other, pair), (fourth, other_pair)];
        let mut draft = wish.draft(&self.table, &mut self.random);
        let mut records = self.records.clone();
        for (slot, (addresses, socket)) in all.into_iter().enumerate() {
            let quadruple = Quadruple::new(addresses, draft.sport, draft.dport);
            records.hold(TRACKED, slot, RUNNING, socket, Conversation { quadruple, age: slot as u32 });
        }
        self.put_records(&records)?;
        self.check()?.expect("the quadruples differ");
        self.reach.hit(&wish.name());
        for (addresses, socket) in all {
            draft.set_addresses(addresses);
            self.socket = socket;
            self.send(&draft, ACK)?;
        }
        self.print()
    }

    fn two_addresses(&mut self, held: Held) -> [Addresses; 2] {
        let random = &mut self.random;
        let (source, destination) = (random.next() as u32 | 1, random.next() as u32 | 1);
        let (source6, destination6) = (any(random), any(random));
        match held {
            Held::BothKinds => [Addresses::V4 { source, destination }, Addresses::v6(source6, destination6)],
            Held::AlikeButKind => {
                [Addresses::V4 { source, destination }, Addresses::v6(source.into(), destination.into())]
            }
            Held::ZeroButKind => [Addresses::V4 { source: 0, destination: 0 }, Addresses::v6(0, 0)],
            Held::OneBitApart(half) => {
                let bit = 1 << random.below(64) << if half.high { 64 } else { 0 };
                let other = if half.source { (source6 ^ bit, destination6) } else { (source6, destination6 ^ bit) };
                [Addresses::v6(source6, destination6), Addresses::v6(other.0, other.1)]
            }
        }
    }
}

fn any(random: &mut Random) -> u128 {
    u128::from(random.next()) << 64 | u128::from(random.next())
}
