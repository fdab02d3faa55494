//! A log in a byte buffer.
use super::log::{Full, Log};
use super::record::{RECORD_BYTES, Record};

pub struct Journal {
    bytes: Vec<u8>,
    count: usize,
    secured: usize,
}

/// The refusal to open: a malformed record, and the buffer.
pub struct Malformed {
    pub record: usize,
    #[allow(unused)]
    pub bytes: Vec<u8>,
}

impl Journal {
    pub fn create(bytes: Vec<u8>) -> Journal {
        Journal { bytes, count: 0, secured: 0 }
    }

    pub fn open(bytes: Vec<u8>, count: usize) -> Result<Journal, Malformed> {
        let (records, _) = bytes.as_chunks();
        let first_bad = (0..count).find(|i| records.get(*i).and_then(Record::decode).is_none());
        match first_bad {
            Some(record) => Err(Malformed { record, bytes }),
            None => Ok(Journal { bytes, count, secured: count }),
        }
    }

    pub fn bytes(&self) -> &[u8] {
        &self.bytes
    }
}

impl Log for Journal {
    fn add(&mut self, record: Record) -> Result<(), Full> {
        let capacity = self.capacity();
        if self.count == capacity {
            return Err(Full { capacity });
        }
        let at = self.count * RECORD_BYTES;
        self.bytes[at..at + RECORD_BYTES].copy_from_slice(&record.encode());
        self.count += 1;
        Ok(())
    }

    fn secure(&mut self) {
        self.secured = self.count;
    }

    fn read(&self, i: usize) -> Option<Record> {
        if i >= self.count {
            return None;
        }
        Record::decode(self.bytes.as_chunks().0.get(i)?)
    }

    fn count(&self) -> usize {
        self.count
    }

    fn secured(&self) -> usize {
        self.secured
    }

    fn capacity(&self) -> usize {
        self.bytes.len() / RECORD_BYTES
    }

    fn restart(&mut self, n: u32) {
        let kept = (self.count - self.secured).min(n as usize / RECORD_BYTES);
        self.secured += kept;
        self.count = self.secured;
    }
}
