//! The coordinator.
use super::log::{Log, records};
use super::record::{Entry, Record, SEATS, Seat, SeatSet};
use super::word::{Fault, Kind, Notification, Row};

#[derive(Clone, Copy, PartialEq, Eq, Debug)]
pub enum State {
    Active,
    VolatileVoting,
    DurableVoting,
    Ready,
    Noted,
    Committing,
    Done,
    Rolled,
}

#[derive(Clone, Copy, PartialEq, Eq, Debug)]
pub enum Durability {
    Volatile,
    Durable,
}

#[derive(Clone, Copy, PartialEq, Eq, Debug)]
pub enum Standing {
    Idle,
    Asked,
    Voted,
    Gone,
    Heard,
}

#[derive(Clone, Copy, PartialEq, Eq, Debug)]
pub enum Outcome {
    Open,
    Committed,
    Aborted,
}

/// The right to close a transaction, spent by doing so.
pub struct ClosingRight {
    transaction: u32,
}

pub type Place = Option<(Durability, Standing)>;

pub struct Coordinator {
    transaction: u32,
    state: State,
    table: [Place; SEATS],
}

type Answer = Result<usize, Fault<State>>;

impl Coordinator {
    pub fn open(transaction: u32) -> (Coordinator, ClosingRight) {
        let coordinator = Coordinator { transaction, state: State::Active, table: [None; SEATS] };
        (coordinator, ClosingRight { transaction })
    }

    pub fn state(&self) -> State {
        self.state
    }

    pub fn place(&self, seat: Seat) -> Place {
        self.table[usize::from(seat.number())]
    }

    pub fn outcome(&self) -> Outcome {
        match self.state {
            State::Committing | State::Done => Outcome::Committed,
            State::Rolled => Outcome::Aborted,
            _ => Outcome::Open,
        }
    }

    /// Answers the seat and how many notifications were written.
    pub fn register(&mut self, durability: Durability, outbox: &mut [Row]) -> Result<(Seat, usize), Fault<State>> {
        check(outbox)?;
        if !matches!(self.state, State::Active | State::VolatileVoting) {
            return Err(Fault::InvalidState);
        }
        let free = self.table.iter().position(|place| place.is_none()).ok_or(Fault::CannotRegister)?;
        let seat = Seat::new(free as u8).ok_or(Fault::CannotRegister)?;
        let asked = self.state == State::VolatileVoting && durability == Durability::Volatile;
        if asked {
            self.table[free] = Some((durability, Standing::Asked));
            outbox[0] = self.row(seat, Kind::Prepare);
            Ok((seat, 1))
        } else {
            self.table[free] = Some((durability, Standing::Idle));
            Ok((seat, 0))
        }
    }

    pub fn ask_commit(
        &mut self,
        right: ClosingRight,
        outbox: &mut [Row],
    ) -> Result<(Outcome, usize), (ClosingRight, Fault<State>)> {
        let _spent = self.spend(right, outbox)?;
        let mut sent = 0;
        if self.state == State::Active {
            self.state = State::VolatileVoting;
            sent = self.ask(Durability::Volatile, outbox, 0);
            sent = self.advance(outbox, sent);
        }
        Ok((self.outcome(), sent))
    }

    pub fn ask_rollback(
        &mut self,
        right: ClosingRight,
        outbox: &mut [Row],
    ) -> Result<(Outcome, usize), (ClosingRight, Fault<State>)> {
        let _spent = self.spend(right, outbox)?;
        let sent = if self.state == State::Active { self.roll_back(outbox) } else { 0 };
        Ok((self.outcome(), sent))
    }

    fn spend(&self, right: ClosingRight, outbox: &[Row]) -> Result<ClosingRight, (ClosingRight, Fault<State>)> {
        if outbox.len() < SEATS {
            return Err((right, Fault::ShortOutbox));
        }
        if right.transaction != self.transaction {
            return Err((right, Fault::OtherRight));
        }
        Ok(right)
    }

    pub fn receive(&mut self, heard: Notification, outbox: &mut [Row]) -> Answer {
        check(outbox)?;
        if heard.transaction != self.transaction {
            return Err(Fault::OtherTransaction);
        }
        if !heard.kind.goes_up() {
            return Err(Fault::Misdirected);
        }
        if self.state == State::Rolled {
            return self.hear_rolled(heard, outbox);
        }
        let at = usize::from(heard.seat.number());
        let Some((durability, standing)) = self.table[at] else {
            return Err(Fault::UnknownTransaction);
        };
        if standing == Standing::Gone {
            return Ok(0);
        }
        match self.state {
            State::Noted => match heard.kind {
                Kind::Prepared => Ok(0),
                _ => Err(self.invalid(heard.seat, 0)),
            },
            State::Committing | State::Done => match heard.kind {
                Kind::Prepared => {
                    outbox[0] = self.row(heard.seat, Kind::Commit);
                    Ok(1)
                }
                Kind::Committed => {
                    if (durability, standing) == (Durability::Durable, Standing::Voted) {
                        self.table[at] = Some((durability, Standing::Heard));
                        self.finish();
                    }
                    Ok(0)
                }
                _ => Err(self.invalid(heard.seat, 0)),
            },
            _ => self.gather(heard, durability, standing, outbox),
        }
    }

    fn hear_rolled(&self, heard: Notification, outbox: &mut [Row]) -> Answer {
        match heard.kind {
            Kind::Prepared => {
                outbox[0] = self.row(heard.seat, Kind::Rollback);
                Ok(1)
            }
            Kind::Committed => Err(self.invalid(heard.seat, 0)),
            _ => Ok(0),
        }
    }

    /// From Active to Ready.
    fn gather(&mut self, heard: Notification, durability: Durability, standing: Standing, outbox: &mut [Row]) -> Answer {
        let at = usize::from(heard.seat.number());
        match (standing, heard.kind) {
            (Standing::Asked, Kind::Prepared) => self.table[at] = Some((durability, Standing::Voted)),
            (Standing::Voted, Kind::Prepared) => {}
            (Standing::Idle | Standing::Asked, Kind::ReadOnly) => self.table[at] = Some((durability, Standing::Gone)),
            (Standing::Idle | Standing::Asked, Kind::Aborted) => {
                self.table[at] = Some((durability, Standing::Gone));
                return Ok(self.roll_back(outbox));
            }
            _ => {
                let state = self.state;
                let sent = self.roll_back(outbox);
                return Err(Fault::InvalidPeer { seat: heard.seat, state, sent });
            }
        }
        Ok(self.advance(outbox, 0))
    }

    pub fn expire(&mut self, outbox: &mut [Row]) -> Answer {
        check(outbox)?;
        match self.state {
            State::Active | State::VolatileVoting | State::DurableVoting | State::Ready => Ok(self.roll_back(outbox)),
            _ => Ok(0),
        }
    }

    pub fn resend(&mut self, outbox: &mut [Row]) -> Answer {
        check(outbox)?;
        match self.state {
            State::VolatileVoting | State::DurableVoting => {
                Ok(self.tell(Kind::Prepare, outbox, |_, standing| standing == Standing::Asked))
            }
            State::Committing => Ok(self.tell(Kind::Commit, outbox, voted_durable)),
            _ => Ok(0),
        }
    }

    pub fn settle<L: Log>(&mut self, log: &mut L, outbox: &mut [Row]) -> Answer {
        check(outbox)?;
        match self.state {
            State::Ready => {
                let mut seats = SeatSet::default();
                for (seat, _) in self.seated().filter(|(_, (d, s))| voted_durable(*d, *s)) {
                    seats.insert(seat);
                }
                match log.add(Record { transaction: self.transaction, entry: Entry::Decision(seats) }) {
                    Ok(()) => {
                        self.state = State::Noted;
                        Ok(0)
                    }
                    Err(full) => {
                        let sent = self.roll_back(outbox);
                        Err(Fault::LogFull { full, sent })
                    }
                }
            }
            State::Noted => {
                log.secure();
                let sent = self.tell(Kind::Commit, outbox, |_, standing| standing == Standing::Voted);
                self.state = State::Committing;
                self.finish();
                Ok(sent)
            }
            _ => Ok(0),
        }
    }

    pub fn restart<L: Log>(self, log: &mut L, n: u32) -> Coordinator {
        log.restart(n);
        let decided = records(log).find_map(|record| match record.entry {
            Entry::Decision(seats) if record.transaction == self.transaction => Some(seats),
            _ => None,
        });
        let mut table = [None; SEATS];
        let state = match decided {
            None => State::Rolled,
            Some(SeatSet(0)) => State::Done,
            Some(seats) => {
                for (place, number) in table.iter_mut().zip(0..) {
                    if Seat::new(number).is_some_and(|seat| seats.has(seat)) {
                        *place = Some((Durability::Durable, Standing::Voted));
                    }
                }
                State::Committing
            }
        };
        Coordinator { transaction: self.transaction, state, table }
    }

    /// Done once no durable seat is left that voted and has not answered.
    fn finish(&mut self) {
        if self.state == State::Committing && !self.table.iter().flatten().any(|(d, s)| voted_durable(*d, *s)) {
            self.state = State::Done;
        }
    }

    fn advance(&mut self, outbox: &mut [Row], mut sent: usize) -> usize {
        let waits = |place: &(Durability, Standing)| matches!(place, (Durability::Volatile, Standing::Idle | Standing::Asked));
        if self.state == State::VolatileVoting && !self.table.iter().flatten().any(waits) {
            sent = self.ask(Durability::Durable, outbox, sent);
            self.state = State::DurableVoting;
        }
        if self.state == State::DurableVoting && !self.table.iter().flatten().any(|(_, s)| *s == Standing::Asked) {
            self.state = State::Ready;
        }
        sent
    }

    /// Asks the idle seats of this durability.
    fn ask(&mut self, whom: Durability, outbox: &mut [Row], mut sent: usize) -> usize {
        let transaction = self.transaction;
        for (place, number) in self.table.iter_mut().zip(0..) {
            if *place == Some((whom, Standing::Idle)) {
                *place = Some((whom, Standing::Asked));
                outbox[sent] = Row { transaction, seat: number, kind: Kind::Prepare as u8 };
                sent += 1;
            }
        }
        sent
    }

    fn roll_back(&mut self, outbox: &mut [Row]) -> usize {
        self.state = State::Rolled;
        self.tell(Kind::Rollback, outbox, |_, standing| standing != Standing::Gone)
    }

    fn tell(&self, kind: Kind, outbox: &mut [Row], whom: impl Fn(Durability, Standing) -> bool) -> usize {
        let mut sent = 0;
        for (seat, _) in self.seated().filter(|(_, (d, s))| whom(*d, *s)) {
            outbox[sent] = self.row(seat, kind);
            sent += 1;
        }
        sent
    }

    fn seated(&self) -> impl Iterator<Item = (Seat, (Durability, Standing))> + '_ {
        self.table.iter().zip(0..).filter_map(|(place, number)| Some((Seat::new(number)?, (*place)?)))
    }

    fn row(&self, seat: Seat, kind: Kind) -> Row {
        Row::from(Notification { transaction: self.transaction, seat, kind })
    }

    fn invalid(&self, seat: Seat, sent: usize) -> Fault<State> {
        Fault::InvalidPeer { seat, state: self.state, sent }
    }
}

fn voted_durable(durability: Durability, standing: Standing) -> bool {
    (durability, standing) == (Durability::Durable, Standing::Voted)
}

fn check(outbox: &[Row]) -> Result<(), Fault<State>> {
    if outbox.len() < SEATS { Err(Fault::ShortOutbox) } else { Ok(()) }
}
