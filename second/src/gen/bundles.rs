//! The dispatch's table: for each thing of datagrams with several messages that is named, frames until it is reached.

use super::*;
use crate::dispatch::{self, ALLOWING, BLOCKING};
use crate::table::Action;

impl<W: Write> Gen<W> {
    pub(super) fn dispatch(&mut self) -> io::Result<()> {
        let table = dispatch::table(&mut self.random);
        self.begin_table(&table)?;
        self.until_shown(Bundle::all(), Bundle::name, Self::show)?;
        self.print()
    }

    fn show(&mut self, bundle: Bundle) -> io::Result<()> {
        self.turn_socket();
        let by_default = bundle == Bundle::AllowedAndBlocked { default: Action::Allow };
        if by_default {
            self.switch(ALLOWING)?;
        }
        let frame = bundle.draft(&self.table, &mut self.random).bytes(&mut self.random);
        if self.random.chance(40) {
            self.layers(&frame)?;
        }
        self.judge(&frame)?;
        if by_default {
            self.switch(BLOCKING)?;
        }
        Ok(())
    }
}
