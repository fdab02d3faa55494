//! A log over any other, which it gives the added records in batches.
use super::log::{Full, Log};
use super::record::Record;

pub const HELD_RECORDS: usize = 8;

pub struct Gatherer<L> {
    below: L,
    held: [Option<Record>; HELD_RECORDS],
    holding: usize,
}

impl<L: Log> Gatherer<L> {
    pub fn over(below: L) -> Gatherer<L> {
        Gatherer { below, held: [None; HELD_RECORDS], holding: 0 }
    }

    pub fn below(&self) -> &L {
        &self.below
    }

    fn pass_down(&mut self) {
        for record in self.held[..self.holding].iter().flatten() {
            // there is room: add looked for it
            let _ = self.below.add(*record);
        }
        self.holding = 0;
    }
}

impl<L: Log> Log for Gatherer<L> {
    fn add(&mut self, record: Record) -> Result<(), Full> {
        let capacity = self.below.capacity();
        if self.count() >= capacity {
            return Err(Full { capacity });
        }
        if self.holding == HELD_RECORDS {
            self.pass_down();
        }
        self.held[self.holding] = Some(record);
        self.holding += 1;
        Ok(())
    }

    fn secure(&mut self) {
        self.pass_down();
        self.below.secure();
    }

    fn read(&self, i: usize) -> Option<Record> {
        let below = self.below.count();
        if i < below {
            self.below.read(i)
        } else {
            *self.held[..self.holding].get(i - below)?
        }
    }

    fn count(&self) -> usize {
        self.below.count() + self.holding
    }

    fn secured(&self) -> usize {
        self.below.secured()
    }

    fn capacity(&self) -> usize {
        self.below.capacity()
    }

    fn restart(&mut self, n: u32) {
        self.holding = 0;
        self.below.restart(n);
    }
}
