//! The calls of a stream: each is written, made and looked at.

use super::*;

impl<W: Write> Gen<W> {
    pub(super) fn put_table(&mut self, table: &Table) -> io::Result<()> {
        let image = image::write_table(table, &mut self.random);
        self.table = image::read_table(&image);
        self.across.push(b'T');
        self.output.write_all(b"T")?;
        self.output.write_all(&image)
    }

    pub(super) fn put_records(&mut self, records: &Records) -> io::Result<()> {
        let image = image::write_records(records, &mut self.random);
        self.records = image::read_records(&image);
        assert_eq!(self.records, *records, "an image says all that records hold");
        self.across.push(b'R');
        self.output.write_all(b"R")?;
        self.output.write_all(&image)
    }

    fn note<T>(&mut self, done: Result<T, Refusal>) -> Option<T> {
        done.map_err(|refusal| self.reach.refused(refusal)).ok()
    }

    pub(super) fn check(&mut self) -> io::Result<Result<(), Refusal>> {
        self.reach.hit("call-check");
        let checked = records::check(&self.table, &self.records);
        self.note(checked);
        self.output.write_all(b"C")?;
        Ok(checked)
    }

    pub(super) fn fresh(&mut self, reading: u64) -> io::Result<()> {
        self.reach.hit("call-fresh");
        if let Some(records) = self.note(records::fresh(&self.table, reading)) {
            self.records = records;
        }
        self.across.push(b'F');
        self.output.write_all(b"F")?;
        self.output.write_all(&reading.to_be_bytes())
    }

    pub(super) fn switch(&mut self, state: u8) -> io::Result<()> {
        self.reach.hit("call-switch");
        let switched = records::switch(&self.table, &mut self.records, state);
        match self.note(switched) {
            Some(()) => self.reach.hit("switch-existing"),
            None if switched == Err(Refusal::NoSuchState) => self.reach.hit("switch-missing"),
            None => {}
        }
        self.output.write_all(&[b'V', state])
    }

    pub(super) fn layers(&mut self, frame: &[u8]) -> io::Result<()> {
        self.reach.hit("call-layers");
        self.note(layers::read(frame));
        self.output.write_all(b"L")?;
        self.put_frame(frame)
    }

    fn put_frame(&mut self, frame: &[u8]) -> io::Result<()> {
        assert!(frame.len() <= LONGEST_FRAME, "a call can carry a frame");
        self.output.write_all(&(frame.len() as u16).to_be_bytes())?;
        self.output.write_all(frame)
    }

    pub(super) fn print(&mut self) -> io::Result<()> {
        self.reach.hit("call-print");
        self.output.write_all(b"P")
    }

    pub(super) fn judge(&mut self, frame: &[u8]) -> io::Result<()> {
        let space = self.space();
        self.judge_in(frame, space)
    }

    /// With an event space of so many bytes. A socket that there is not is that of one call alone.
    pub(super) fn judge_in(&mut self, frame: &[u8], space: usize) -> io::Result<()> {
        if self.left == 0 {
            return Ok(());
        }
        self.left -= 1;
        let mut space = vec![UNTOUCHED; space];
        let (before, reading, socket) = (self.records.clone(), self.now, self.socket);
        let judged = judge(&self.table, &mut self.records, socket, frame, reading, &mut space);
        self.say_socket(socket)?;
        let (table, before, after) = (&self.table, &before, &self.records);
        let across = if socket == 0 { &[][..] } else { &self.across };
        self.reach.judged(&Call { table, before, after, socket, across, reading, frame, space: &space, judged });
        self.socket %= SOCKETS as u8;
        self.output.write_all(b"J")?;
        self.output.write_all(&reading.to_be_bytes())?;
        self.output.write_all(&(space.len() as u16).to_be_bytes())?;
        self.put_frame(frame)
    }

    fn space(&mut self) -> usize {
        let length = match self.random.below(100) {
            0..=1 => 255,
            2 => 0,
            3 => self.random.below(256),
            4..=13 => 512,
            14..=33 => self.random.between(256, 512),
            _ => 256,
        };
        length as usize
    }
}
