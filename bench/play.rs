//! The play of a string of bytes on the twin, as README.md says it.
use crate::loops::{fault_number, fill, journal_of, made, tell_record};
use crate::twin::coordinator::{self, ClosingRight, Coordinator, Durability, Outcome, Standing};
use crate::twin::gatherer::Gatherer;
use crate::twin::journal::Journal;
use crate::twin::line::Queue;
use crate::twin::log::Log;
use crate::twin::participant::{self, Ballot, Participant};
use crate::twin::record::{SEATS, Seat};
use crate::twin::tray::Tray;
use crate::twin::word::{Fault, Kind, Notification, Row};

const STORES: u8 = 4;

/// Which cells of the tables were played.
#[derive(Default)]
pub struct Cover {
    /// by state and kind, of notifications that passed a participant's checks
    pub participant: [[u64; 3]; 10],
    /// by state, standing (5 for a vacant place) and kind, likewise of a coordinator's
    pub coordinator: [[[u64; 4]; 6]; 8],
    pub faults: [u64; 12],
}

/// What was told, and where the telling of each call begins.
#[derive(Default)]
pub struct Told {
    pub bytes: Vec<u8>,
    pub begins: Vec<usize>,
}

impl Told {
    fn short(&mut self, number: usize) {
        self.bytes.extend_from_slice(&(number as u16).to_be_bytes());
    }

    fn put(&mut self, byte: u8) {
        self.bytes.push(byte);
    }

    fn rows(&mut self, rows: &[Row]) {
        self.short(rows.len());
        for row in rows {
            self.bytes.extend_from_slice(&row.transaction.to_be_bytes());
            self.put(row.seat);
            self.put(row.kind);
        }
    }

    fn counts<L: Log>(&mut self, log: &L) {
        self.short(log.count());
        self.short(log.secured());
    }

    fn read<L: Log>(&mut self, log: &L, i: usize) {
        match log.read(i) {
            Some(record) => tell_record(&mut self.bytes, record),
            None => self.put(0),
        }
    }

    fn log<L: Shown>(&mut self, log: &L) {
        self.short(log.capacity());
        self.short(log.spare());
        self.counts(log);
        for i in 0..log.count() {
            self.read(log, i);
        }
        self.bytes.extend_from_slice(log.shown());
    }

    fn fault<S: Copy + Code>(&mut self, fault: Fault<S>) {
        self.put(fault_number(&fault));
        match fault {
            Fault::InvalidPeer { seat, state, sent } => {
                self.put(seat.number());
                self.put(state.code());
                self.short(sent);
            }
            Fault::LogFull { full, sent } => {
                self.put(1);
                self.short(full.capacity);
                self.short(sent);
            }
            Fault::NoPlace { spare, sent } => {
                self.put(2);
                self.short(spare);
                self.short(sent);
            }
            _ => {}
        }
    }

    /// Answers how many were sent.
    fn answer<S: Copy + Code>(&mut self, answer: Result<usize, Fault<S>>) -> usize {
        match answer {
            Ok(sent) => {
                self.put(0);
                self.short(sent);
                sent
            }
            Err(fault) => {
                self.fault(fault);
                match fault {
                    Fault::InvalidPeer { sent, .. } | Fault::LogFull { sent, .. } | Fault::NoPlace { sent, .. } => sent,
                    _ => 0,
                }
            }
        }
    }

    fn coordinator(&mut self, coordinator: &Coordinator) {
        self.put(coordinator.state() as u8);
        self.put(outcome_number(coordinator.outcome()));
        for seat in (0..SEATS as u8).filter_map(Seat::new) {
            self.put(match coordinator.place(seat) {
                None => 0,
                Some((Durability::Volatile, standing)) => 1 + standing as u8,
                Some((Durability::Durable, standing)) => 11 + standing as u8,
            });
        }
    }
}

/// The number by which a log restarts.
fn cut_by(what: u8, number: u8) -> u32 {
    if what == 255 { u32::MAX } else { u32::from(number) }
}

fn outcome_number(outcome: Outcome) -> u8 {
    match outcome {
        Outcome::Open => 0,
        Outcome::Committed => 1,
        Outcome::Aborted => 2,
    }
}

/// A state's code.
trait Code {
    fn code(self) -> u8;
}

impl Code for coordinator::State {
    fn code(self) -> u8 {
        self as u8
    }
}

impl Code for participant::State {
    fn code(self) -> u8 {
        self as u8
    }
}

/// A log that can be made, and whose bytes are shown if it has some.
pub trait Shown: Log {
    fn made(places: u32) -> Self;
    fn shown(&self) -> &[u8];
}

impl Shown for Tray {
    fn made(_: u32) -> Tray {
        Tray::new()
    }

    fn shown(&self) -> &[u8] {
        &[]
    }
}

impl Shown for Journal {
    fn made(places: u32) -> Journal {
        journal_of(places)
    }

    fn shown(&self) -> &[u8] {
        self.bytes()
    }
}

impl<L: Shown> Shown for Gatherer<L> {
    fn made(places: u32) -> Gatherer<L> {
        Gatherer::over(L::made(places))
    }

    fn shown(&self) -> &[u8] {
        self.below().shown()
    }
}

struct Store<L> {
    participant: Participant,
    log: L,
}

struct Game<'a, L> {
    transaction: u32,
    coordinator: Coordinator,
    right: Option<ClosingRight>,
    log: L,
    stores: Vec<Store<L>>,
    line: Queue<'a>,
    told: &'a mut Told,
    cover: &'a mut Cover,
}

/// Plays the bytes, and tells.
pub fn play(calls: &[u8], told: &mut Told, cover: &mut Cover) {
    told.bytes.clear();
    told.begins.clear();
    let Some([logs, ..]) = calls.as_chunks::<4>().0.first() else { return };
    match logs % 4 {
        0 => play_over::<Tray>(calls, told, cover),
        1 => play_over::<Gatherer<Tray>>(calls, told, cover),
        2 => play_over::<Journal>(calls, told, cover),
        _ => play_over::<Gatherer<Journal>>(calls, told, cover),
    }
}

fn play_over<L: Shown>(calls: &[u8], told: &mut Told, cover: &mut Cover) {
    let Some(([_, places, held, transaction], calls)) = calls.as_chunks::<4>().0.split_first() else { return };
    let transaction = u32::from(*transaction) << 16 | u32::from(*held);
    let filled = || {
        let mut log = L::made(u32::from(places % 64));
        fill(&mut log, u32::from(held % 32));
        log
    };
    let stores = (0..STORES)
        .filter_map(Seat::new)
        .map(|seat| Store { participant: Participant::join(transaction, seat), log: filled() })
        .collect();
    let (coordinator, right) = Coordinator::open(transaction);
    let mut rows = [Row::default(); 47];
    let line = Queue::new(&mut rows[..16 + transaction as usize % 31]);
    let mut game = Game { transaction, coordinator, right: Some(right), log: filled(), stores, line, told, cover };
    for call in calls {
        game.told.begins.push(game.told.bytes.len());
        game.call(*call);
    }
    game.told.begins.push(game.told.bytes.len());
    game.end();
}

impl<L: Shown> Game<'_, L> {
    fn call(&mut self, [call, who, what, number]: [u8; 4]) {
        let call = call % 32;
        self.told.put(call);
        match call {
            0..=9 => self.deliver(number),
            10..=19 => self.call_coordinator([call, who, what, number]),
            20..=29 => self.call_store([call, who, what, number]),
            30 => self.keep(who, what, number),
            _ => self.refuse(number),
        }
        self.told.short(self.line.len());
        self.told.short(self.line.room());
        self.told.short(self.line.posts() as usize);
    }

    fn call_coordinator(&mut self, [call, who, what, number]: [u8; 4]) {
        match call {
            10 => self.register(Durability::Volatile, number),
            11 => self.register(Durability::Durable, number),
            12 => self.close(what, number),
            13..=15 => self.coordinate(number, |coordinator, log, outbox| coordinator.settle(log, outbox)),
            16 if what % 8 == 0 => self.coordinate(number, |coordinator, _, outbox| coordinator.expire(outbox)),
            16 => self.coordinate(number, |coordinator, _, outbox| coordinator.resend(outbox)),
            17 if what % 2 == 1 => self.restart(cut_by(what, number)),
            17 => self.coordinate(number, |_, _, _| Ok(0)),
            18 => {
                let kind = if what < 224 { 4 + what % 4 } else { 1 + what % 3 };
                match self.said(who % 16, kind, number) {
                    Some(heard) => self.hear(heard, number),
                    None => self.coordinate(number, |_, _, _| Ok(0)),
                }
            }
            _ => self.begin(what),
        }
    }

    fn call_store(&mut self, [call, who, what, number]: [u8; 4]) {
        let at = usize::from(who % STORES);
        match call {
            20 => self.join(at, what),
            21..=23 => {
                let ballot = match what % 8 {
                    0 => Ballot::ReadOnly,
                    1 => Ballot::Aborted,
                    _ => Ballot::Prepared,
                };
                self.take_part(at, number, |store, outbox| store.participant.vote(ballot, &mut store.log, outbox));
            }
            24..=26 => self.take_part(at, number, |store, outbox| store.participant.settle(&mut store.log, outbox)),
            27 if what % 8 == 0 => self.take_part(at, number, |store, outbox| store.participant.expire(outbox)),
            27 => self.take_part(at, number, |store, outbox| store.participant.resend(outbox)),
            28 if what % 2 == 1 => self.take_part(at, number, |store, _| {
                store.cut(cut_by(what, number));
                Ok(0)
            }),
            28 => self.take_part(at, number, |_, _| Ok(0)),
            _ => {
                let kind = if what < 224 { 1 + what % 3 } else { 4 + what % 4 };
                let seat = if who < 16 { who / 4 } else { who % STORES };
                match self.said(seat, kind, number) {
                    Some(heard) => self.hear_at(at, heard, number),
                    None => self.take_part(at, number, |_, _| Ok(0)),
                }
            }
        }
    }

    fn said(&self, seat: u8, kind: u8, number: u8) -> Option<Notification> {
        let other = u32::from(number % 8 == 1);
        Some(Notification {
            transaction: self.transaction.wrapping_add(other),
            seat: Seat::new(seat)?,
            kind: Kind::of(kind)?,
        })
    }

    fn deliver(&mut self, number: u8) {
        let Some(heard) = self.line.take() else { return };
        if heard.kind.goes_up() {
            self.hear(heard, number);
        } else {
            self.hear_at(usize::from(heard.seat.number()), heard, number);
        }
    }

    fn hear(&mut self, heard: Notification, number: u8) {
        if heard.kind.goes_up() && heard.transaction == self.transaction {
            let standing = match self.coordinator.place(heard.seat) {
                Some((_, standing)) => standing as usize,
                None => Standing::Heard as usize + 1,
            };
            self.cover.coordinator[self.coordinator.state() as usize][standing][heard.kind as usize - 4] += 1;
        }
        self.coordinate(number, |coordinator, _, outbox| coordinator.receive(heard, outbox));
    }

    fn hear_at(&mut self, at: usize, heard: Notification, number: u8) {
        if let Some(store) = self.stores.get(at) {
            if !heard.kind.goes_up() {
                self.cover.participant[store.participant.state() as usize][heard.kind as usize - 1] += 1;
            }
        }
        self.take_part(at, number, |store, outbox| store.participant.receive(heard, &mut store.log, outbox));
    }

    fn coordinate(
        &mut self,
        number: u8,
        ask: impl FnOnce(&mut Coordinator, &mut L, &mut [Row]) -> Result<usize, Fault<coordinator::State>>,
    ) {
        let mut rows = outbox();
        let rows = &mut rows[..coordinator_places(number)];
        let answer = ask(&mut self.coordinator, &mut self.log, rows);
        self.answered(answer, rows);
    }

    fn answered(&mut self, answer: Result<usize, Fault<coordinator::State>>, rows: &[Row]) {
        if let Err(fault) = &answer {
            self.cover.faults[usize::from(fault_number(fault))] += 1;
        }
        let sent = self.told.answer(answer);
        self.told.rows(rows);
        self.line.post_all(&rows[..sent]);
        self.told.coordinator(&self.coordinator);
        self.told.counts(&self.log);
    }

    fn register(&mut self, durability: Durability, number: u8) {
        let mut rows = outbox();
        let rows = &mut rows[..coordinator_places(number)];
        let answer = self.coordinator.register(durability, rows).map(|(seat, sent)| {
            self.told.put(seat.number());
            sent
        });
        self.answered(answer, rows);
    }

    fn restart(&mut self, n: u32) {
        let (blank, _) = Coordinator::open(self.transaction);
        let old = std::mem::replace(&mut self.coordinator, blank);
        self.coordinator = old.restart(&mut self.log, n);
        self.told.coordinator(&self.coordinator);
        self.told.counts(&self.log);
    }

    fn close(&mut self, what: u8, number: u8) {
        let mut rows = outbox();
        let rows = &mut rows[..coordinator_places(number)];
        match self.right.take() {
            None => self.told.put(255),
            Some(right) => {
                let answer = if what % 8 == 0 {
                    self.coordinator.ask_rollback(right, rows)
                } else {
                    self.coordinator.ask_commit(right, rows)
                };
                match answer {
                    Ok((outcome, sent)) => {
                        self.told.put(0);
                        self.told.short(sent);
                        self.told.put(outcome_number(outcome));
                        self.line.post_all(&rows[..sent]);
                    }
                    Err((right, fault)) => {
                        self.cover.faults[usize::from(fault_number(&fault))] += 1;
                        self.right = Some(right);
                        self.told.fault(fault);
                    }
                }
            }
        }
        self.told.rows(rows);
        self.told.coordinator(&self.coordinator);
    }

    fn spend(&mut self) {
        if let Some(right) = self.right.take() {
            let mut rows = outbox();
            let _ = self.coordinator.ask_rollback(right, &mut rows);
        }
    }

    fn begin(&mut self, what: u8) {
        if what % 4 != 0 {
            return;
        }
        self.spend();
        self.told.coordinator(&self.coordinator);
        self.transaction = self.transaction.wrapping_add(1);
        let (coordinator, right) = Coordinator::open(self.transaction);
        self.coordinator = coordinator;
        self.right = Some(right);
    }

    fn refuse(&mut self, number: u8) {
        let mut rows = outbox();
        let rows = &mut rows[..coordinator_places(number)];
        let (_, right) = Coordinator::open(self.transaction.wrapping_add(1));
        match self.coordinator.ask_commit(right, rows) {
            Ok(_) => self.told.put(0),
            Err((_, fault)) => {
                self.cover.faults[usize::from(fault_number(&fault))] += 1;
                self.told.fault(fault);
            }
        }
        self.told.rows(rows);
        self.told.coordinator(&self.coordinator);
    }

    fn join(&mut self, at: usize, what: u8) {
        for (number, store) in self.stores.iter_mut().enumerate() {
            if what % 4 != 0 || number == at {
                if let Some(seat) = Seat::new(number as u8) {
                    store.participant = Participant::join(self.transaction, seat);
                }
            }
        }
    }

    fn take_part(
        &mut self,
        at: usize,
        number: u8,
        ask: impl FnOnce(&mut Store<L>, &mut [Row]) -> Result<usize, Fault<participant::State>>,
    ) {
        let mut rows = outbox();
        let rows = &mut rows[..store_places(number)];
        let Some(store) = self.stores.get_mut(at) else { return };
        let answer = ask(store, rows);
        if let Err(fault) = &answer {
            self.cover.faults[usize::from(fault_number(fault))] += 1;
        }
        let sent = self.told.answer(answer);
        self.told.put(store.participant.state() as u8);
        self.told.counts(&store.log);
        self.told.rows(rows);
        self.line.post_all(&rows[..sent]);
    }

    fn keep(&mut self, who: u8, what: u8, number: u8) {
        let transaction = self.transaction.wrapping_add(u32::from(number % 2));
        let log = match self.stores.get_mut(usize::from(who % 5)) {
            Some(store) => &mut store.log,
            None => &mut self.log,
        };
        match what % 4 {
            0 => match log.add(made(1 + what / 4 % 4, transaction, u16::from(number) * 257)) {
                Ok(()) => self.told.put(0),
                Err(full) => self.told.short(full.capacity),
            },
            1 => log.secure(),
            2 => self.told.read(log, usize::from(number)),
            _ => log.restart(u32::from(number)),
        }
        self.told.counts(log);
    }

    fn end(mut self) {
        self.spend();
        self.told.coordinator(&self.coordinator);
        self.told.log(&self.log);
        for store in &self.stores {
            self.told.log(&store.log);
        }
    }
}

impl<L: Log> Store<L> {
    fn cut(&mut self, n: u32) {
        // any seat will do for a participant that is replaced at once
        let Some(seat) = Seat::new(0) else { return };
        let old = std::mem::replace(&mut self.participant, Participant::join(0, seat));
        self.participant = old.restart(&mut self.log, n);
    }
}

fn outbox() -> [Row; 20] {
    [Row { transaction: 1, seat: 99, kind: 9 }; 20]
}

fn coordinator_places(number: u8) -> usize {
    if number % 16 == 0 { usize::from(number / 16) } else { 16 + usize::from(number % 4) }
}

fn store_places(number: u8) -> usize {
    if number % 16 == 0 { 0 } else { 1 + usize::from(number % 2) }
}
