//! Seats, sets of seats, and the records of a log with their 22 bytes.

/// How many seats a coordinator has.
pub const SEATS: usize = 16;

/// How many bytes a record takes.
pub const RECORD_BYTES: usize = 22;

/// A number from 0 to 15.
#[derive(Clone, Copy, PartialEq, Eq, Debug)]
pub struct Seat(u8);

impl Seat {
    pub fn new(number: u8) -> Option<Seat> {
        (usize::from(number) < SEATS).then_some(Seat(number))
    }

    pub fn number(self) -> u8 {
        self.0
    }
}

/// A set of seats, a bit for each.
#[derive(Clone, Copy, PartialEq, Eq, Debug, Default)]
pub struct SeatSet(pub u16);

impl SeatSet {
    pub fn only(seat: Seat) -> SeatSet {
        SeatSet(1 << seat.0)
    }

    pub fn insert(&mut self, seat: Seat) {
        self.0 |= 1 << seat.0;
    }

    pub fn has(self, seat: Seat) -> bool {
        self.0 >> seat.0 & 1 == 1
    }

    pub fn single(self) -> Option<Seat> {
        self.0.is_power_of_two().then(|| Seat(self.0.trailing_zeros() as u8))
    }
}

#[derive(Clone, Copy, PartialEq, Eq, Debug)]
pub enum Entry {
    Decision(SeatSet),
    Vote(Seat),
    Kept(Seat),
    Undone(Seat),
}

impl Entry {
    pub fn kind(self) -> u8 {
        match self {
            Entry::Decision(_) => 1,
            Entry::Vote(_) => 2,
            Entry::Kept(_) => 3,
            Entry::Undone(_) => 4,
        }
    }

    pub fn seats(self) -> SeatSet {
        match self {
            Entry::Decision(seats) => seats,
            Entry::Vote(seat) | Entry::Kept(seat) | Entry::Undone(seat) => SeatSet::only(seat),
        }
    }

    pub fn of(kind: u8, seats: SeatSet) -> Option<Entry> {
        match kind {
            1 => Some(Entry::Decision(seats)),
            2 => seats.single().map(Entry::Vote),
            3 => seats.single().map(Entry::Kept),
            4 => seats.single().map(Entry::Undone),
            _ => None,
        }
    }
}

#[derive(Clone, Copy, PartialEq, Eq, Debug)]
pub struct Record {
    pub transaction: u32,
    pub entry: Entry,
}

impl Record {
    pub fn encode(&self) -> [u8; RECORD_BYTES] {
        let mut bytes = [0; RECORD_BYTES];
        bytes[..4].copy_from_slice(&self.transaction.to_be_bytes());
        bytes[4] = self.entry.kind();
        let mut left = u32::from(self.entry.seats().0);
        let mut pairs = 0;
        for pair in bytes[6..].chunks_exact_mut(2) {
            if left == 0 {
                break;
            }
            let offset = left.trailing_zeros();
            let length = (left >> offset).trailing_ones();
            pair[0] = offset as u8;
            pair[1] = length as u8;
            left &= !(((1 << length) - 1) << offset);
            pairs += 1;
        }
        bytes[5] = pairs;
        bytes
    }

    pub fn decode(bytes: &[u8; RECORD_BYTES]) -> Option<Record> {
        let transaction = u32::from_be_bytes([bytes[0], bytes[1], bytes[2], bytes[3]]);
        let used = usize::from(bytes[5]);
        if used > 8 {
            return None;
        }
        let (runs, unused) = bytes[6..].split_at(2 * used);
        let mut seats = 0u32;
        // the first seat at which the next run may begin
        let mut from = 0;
        for run in runs.chunks_exact(2) {
            let (offset, length) = (u32::from(run[0]), u32::from(run[1]));
            if offset < from || length == 0 || offset + length > SEATS as u32 {
                return None;
            }
            seats |= ((1 << length) - 1) << offset;
            from = offset + length + 1;
        }
        if unused.iter().any(|byte| *byte != 0) {
            return None;
        }
        let entry = Entry::of(bytes[4], SeatSet(seats as u16))?;
        Some(Record { transaction, entry })
    }
}

/// A record as plain numbers, read back with a check.
#[derive(Clone, Copy, PartialEq, Eq, Debug, Default)]
pub struct RecordRow {
    pub transaction: u32,
    pub kind: u8,
    pub seats: u16,
}

impl From<Record> for RecordRow {
    fn from(record: Record) -> RecordRow {
        RecordRow {
            transaction: record.transaction,
            kind: record.entry.kind(),
            seats: record.entry.seats().0,
        }
    }
}

impl RecordRow {
    pub fn record(self) -> Option<Record> {
        let entry = Entry::of(self.kind, SeatSet(self.seats))?;
        Some(Record { transaction: self.transaction, entry })
    }
}
