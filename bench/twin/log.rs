//! What every log does.
use super::record::Record;

/// The fault of a full log.
#[derive(Clone, Copy, PartialEq, Eq, Debug)]
pub struct Full {
    pub capacity: usize,
}

pub trait Log {
    fn add(&mut self, record: Record) -> Result<(), Full>;
    fn secure(&mut self);
    fn read(&self, i: usize) -> Option<Record>;
    fn count(&self) -> usize;
    fn secured(&self) -> usize;
    fn capacity(&self) -> usize;
    fn restart(&mut self, n: u32);

    fn spare(&self) -> usize {
        self.capacity() - self.count()
    }
}

/// The records of a log, one after the other.
pub fn records<L: Log>(log: &L) -> impl Iterator<Item = Record> + '_ {
    (0..log.count()).map_while(|i| log.read(i))
}
