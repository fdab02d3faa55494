//! The durable participant.
use super::log::{Log, records};
use super::record::{Entry, Record, Seat};
use super::word::{Fault, Kind, Notification, Row};

#[derive(Clone, Copy, PartialEq, Eq, Debug)]
pub enum State {
    Working,
    Voting,
    Noted,
    InDoubt,
    Keeping,
    Undoing,
    Kept,
    Undone,
    Viewed,
    Unknown,
}

#[derive(Clone, Copy, PartialEq, Eq, Debug)]
pub enum Ballot {
    Prepared,
    ReadOnly,
    Aborted,
}

pub struct Participant {
    transaction: u32,
    seat: Seat,
    state: State,
}

type Answer = Result<usize, Fault<State>>;

impl Participant {
    pub fn join(transaction: u32, seat: Seat) -> Participant {
        Participant { transaction, seat, state: State::Working }
    }

    pub fn state(&self) -> State {
        self.state
    }

    pub fn receive<L: Log>(&mut self, heard: Notification, log: &mut L, outbox: &mut [Row]) -> Answer {
        if outbox.is_empty() {
            return Err(Fault::ShortOutbox);
        }
        if heard.transaction != self.transaction {
            return Err(Fault::OtherTransaction);
        }
        if heard.kind.goes_up() || heard.seat != self.seat {
            return Err(Fault::Misdirected);
        }
        match heard.kind {
            Kind::Prepare => Ok(self.prepare(outbox)),
            Kind::Commit => self.commit(log, outbox),
            _ => self.roll_back(log, outbox),
        }
    }

    fn prepare(&mut self, outbox: &mut [Row]) -> usize {
        match self.state {
            State::Working => {
                self.state = State::Voting;
                0
            }
            State::Voting | State::Noted | State::Keeping | State::Undoing | State::Kept => 0,
            State::InDoubt => self.send(Kind::Prepared, outbox),
            State::Undone | State::Unknown => self.send(Kind::Aborted, outbox),
            State::Viewed => self.send(Kind::ReadOnly, outbox),
        }
    }

    fn commit<L: Log>(&mut self, log: &mut L, outbox: &mut [Row]) -> Answer {
        match self.state {
            State::Working | State::Voting | State::Noted => {
                Err(Fault::InvalidPeer { seat: self.seat, state: self.state, sent: 0 })
            }
            State::InDoubt => self.write(Entry::Kept(self.seat), State::Keeping, log),
            State::Keeping => Ok(0),
            State::Undoing | State::Undone => Err(Fault::Inconsistent),
            State::Kept | State::Viewed | State::Unknown => Ok(self.send(Kind::Committed, outbox)),
        }
    }

    fn roll_back<L: Log>(&mut self, log: &mut L, outbox: &mut [Row]) -> Answer {
        match self.state {
            State::Working | State::Voting => Ok(self.undo(outbox)),
            State::Noted | State::InDoubt => self.write(Entry::Undone(self.seat), State::Undoing, log),
            State::Keeping | State::Kept => Err(Fault::Inconsistent),
            State::Undoing => Ok(0),
            State::Undone | State::Viewed | State::Unknown => Ok(self.send(Kind::Aborted, outbox)),
        }
    }

    pub fn vote<L: Log>(&mut self, ballot: Ballot, log: &mut L, outbox: &mut [Row]) -> Answer {
        if outbox.is_empty() {
            return Err(Fault::ShortOutbox);
        }
        if self.state != State::Voting {
            return Err(Fault::InvalidState);
        }
        match ballot {
            Ballot::Prepared => {
                let spare = log.spare();
                if spare < 2 {
                    let sent = self.undo(outbox);
                    return Err(Fault::NoPlace { spare, sent });
                }
                self.write(Entry::Vote(self.seat), State::Noted, log)
            }
            Ballot::ReadOnly => {
                self.state = State::Viewed;
                Ok(self.send(Kind::ReadOnly, outbox))
            }
            Ballot::Aborted => Ok(self.undo(outbox)),
        }
    }

    pub fn settle<L: Log>(&mut self, log: &mut L, outbox: &mut [Row]) -> Answer {
        if outbox.is_empty() {
            return Err(Fault::ShortOutbox);
        }
        let (next, kind) = match self.state {
            State::Noted => (State::InDoubt, Kind::Prepared),
            State::Keeping => (State::Kept, Kind::Committed),
            State::Undoing => (State::Undone, Kind::Aborted),
            _ => return Ok(0),
        };
        log.secure();
        self.state = next;
        Ok(self.send(kind, outbox))
    }

    pub fn expire(&mut self, outbox: &mut [Row]) -> Answer {
        if outbox.is_empty() {
            return Err(Fault::ShortOutbox);
        }
        match self.state {
            State::Working | State::Voting => Ok(self.undo(outbox)),
            _ => Ok(0),
        }
    }

    pub fn resend(&mut self, outbox: &mut [Row]) -> Answer {
        if outbox.is_empty() {
            return Err(Fault::ShortOutbox);
        }
        match self.state {
            State::InDoubt => Ok(self.send(Kind::Prepared, outbox)),
            _ => Ok(0),
        }
    }

    pub fn restart<L: Log>(self, log: &mut L, n: u32) -> Participant {
        log.restart(n);
        let mut state = State::Unknown;
        for record in records(log) {
            if record.transaction != self.transaction {
                continue;
            }
            match record.entry {
                Entry::Kept(seat) if seat == self.seat => {
                    state = State::Kept;
                    break;
                }
                Entry::Undone(seat) if seat == self.seat => {
                    state = State::Undone;
                    break;
                }
                Entry::Vote(seat) if seat == self.seat => state = State::InDoubt,
                _ => {}
            }
        }
        Participant { state, ..self }
    }

    fn write<L: Log>(&mut self, entry: Entry, next: State, log: &mut L) -> Answer {
        match log.add(Record { transaction: self.transaction, entry }) {
            Ok(()) => {
                self.state = next;
                Ok(0)
            }
            Err(full) => Err(Fault::LogFull { full, sent: 0 }),
        }
    }

    fn undo(&mut self, outbox: &mut [Row]) -> usize {
        self.state = State::Undone;
        self.send(Kind::Aborted, outbox)
    }

    fn send(&self, kind: Kind, outbox: &mut [Row]) -> usize {
        outbox[0] = Row::from(Notification { transaction: self.transaction, seat: self.seat, kind });
        1
    }
}
