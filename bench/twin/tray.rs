//! A log in a table of 32 rows.
use super::log::{Full, Log};
use super::record::{Record, RecordRow};

pub const TRAY_ROWS: usize = 32;

pub struct Tray {
    rows: [RecordRow; TRAY_ROWS],
    count: usize,
    secured: usize,
}

impl Tray {
    pub fn new() -> Tray {
        Tray { rows: [RecordRow::default(); TRAY_ROWS], count: 0, secured: 0 }
    }
}

impl Log for Tray {
    fn add(&mut self, record: Record) -> Result<(), Full> {
        let Some(row) = self.rows.get_mut(self.count) else {
            return Err(Full { capacity: TRAY_ROWS });
        };
        *row = RecordRow::from(record);
        self.count += 1;
        Ok(())
    }

    fn secure(&mut self) {
        self.secured = self.count;
    }

    fn read(&self, i: usize) -> Option<Record> {
        self.rows[..self.count].get(i)?.record()
    }

    fn count(&self) -> usize {
        self.count
    }

    fn secured(&self) -> usize {
        self.secured
    }

    fn capacity(&self) -> usize {
        TRAY_ROWS
    }

    fn restart(&mut self, n: u32) {
        let kept = (self.count - self.secured).min(n as usize);
        self.secured += kept;
        self.count = self.secured;
    }
}
