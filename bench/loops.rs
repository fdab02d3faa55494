//! The loops of crate `measured` over the twin: the same calls, in the same order, with the same sums.
use crate::twin::coordinator::{Coordinator, Durability};
use crate::twin::journal::Journal;
use crate::twin::line::Queue;
use crate::twin::log::Log;
use crate::twin::participant::{Ballot, Participant};
use crate::twin::record::{Entry, RECORD_BYTES, Record, RecordRow, SEATS, Seat, SeatSet};
use crate::twin::tray::Tray;
use crate::twin::word::{Fault, Kind, Notification, Row};

/// 2 to the 32nd by the golden ratio.
const SPREAD: u32 = 2_654_435_769;

pub fn made(kind: u8, transaction: u32, bits: u16) -> Record {
    let entry = match (kind, Seat::new((bits % 16) as u8)) {
        (2, Some(seat)) => Entry::Vote(seat),
        (3, Some(seat)) => Entry::Kept(seat),
        (4, Some(seat)) => Entry::Undone(seat),
        _ => Entry::Decision(SeatSet(bits)),
    };
    Record { transaction, entry }
}

pub fn varied(kind: u8, i: u32) -> Record {
    made(kind, i, (i.wrapping_mul(SPREAD) >> 16) as u16)
}

#[inline(never)]
pub fn encode(kind: u8, rounds: u32) -> u64 {
    let mut sum = 0u64;
    for i in 0..rounds {
        let bytes = varied(kind, i).encode();
        sum = sum.wrapping_mul(31).wrapping_add(u64::from(bytes[i as usize % RECORD_BYTES]));
    }
    sum
}

#[inline(never)]
pub fn decode(bytes: &[u8], rounds: u32) -> u64 {
    let mut sum = 0u64;
    for _ in 0..rounds {
        for part in bytes.as_chunks().0 {
            let told = match Record::decode(part) {
                Some(record) => {
                    let row = RecordRow::from(record);
                    u64::from(row.transaction) + u64::from(row.seats) + u64::from(row.kind)
                }
                None => 0,
            };
            sum = sum.wrapping_mul(31).wrapping_add(told);
        }
    }
    sum
}

#[inline(never)]
pub fn read(bytes: &[u8], out: &mut Vec<u8>) {
    out.clear();
    for part in bytes.as_chunks().0 {
        match Record::decode(part) {
            Some(record) => tell_record(out, record),
            None => out.push(0),
        }
    }
}

pub fn tell_record(out: &mut Vec<u8>, record: Record) {
    let row = RecordRow::from(record);
    out.push(row.kind);
    out.extend_from_slice(&row.transaction.to_be_bytes());
    out.extend_from_slice(&row.seats.to_be_bytes());
}

pub fn open(bytes: &[u8], count: usize) -> Result<usize, usize> {
    match Journal::open(bytes.to_vec(), count) {
        Ok(_) => Ok(count),
        Err(malformed) => Err(malformed.record),
    }
}

struct Store {
    participant: Participant,
    log: Tray,
}

#[inline(never)]
pub fn commit(stores: u8, rounds: u32) -> u64 {
    let mut stores: Vec<Store> = (0..stores)
        .filter_map(Seat::new)
        .map(|seat| Store { participant: Participant::join(0, seat), log: Tray::new() })
        .collect();
    let mut sum = 0u64;
    let mut log = Tray::new();
    for transaction in 0..rounds {
        if transaction % 16 == 0 {
            log = Tray::new();
            for store in &mut stores {
                store.log = Tray::new();
            }
        }
        sum = sum.wrapping_mul(31).wrapping_add(commit_one(transaction, &mut stores, &mut log));
    }
    sum
}

fn commit_one(transaction: u32, stores: &mut [Store], log: &mut Tray) -> u64 {
    let mut places = [Row::default(); 16];
    let mut line = Queue::new(&mut places);
    let mut outbox = [Row::default(); SEATS];
    let (mut coordinator, right) = Coordinator::open(transaction);
    for store in stores.iter_mut() {
        if let Ok((seat, _)) = coordinator.register(Durability::Durable, &mut outbox) {
            store.participant = Participant::join(transaction, seat);
        }
    }
    if let Ok((_, sent)) = coordinator.ask_commit(right, &mut outbox) {
        line.post_all(&outbox[..sent]);
    }
    hand_down(stores, &mut line);
    let mut one = [Row::default(); 1];
    for store in stores.iter_mut() {
        let sent = store.participant.vote(Ballot::Prepared, &mut store.log, &mut one).unwrap_or(0);
        line.post_all(&one[..sent]);
    }
    settle_all(stores, &mut line);
    hand_up(&mut coordinator, &mut line);
    for _ in 0..2 {
        let sent = coordinator.settle(log, &mut outbox).unwrap_or(0);
        line.post_all(&outbox[..sent]);
    }
    hand_down(stores, &mut line);
    settle_all(stores, &mut line);
    hand_up(&mut coordinator, &mut line);
    let mut sum = coordinator.state() as u64 + log.secured() as u64;
    for store in stores.iter() {
        sum = sum
            .wrapping_mul(31)
            .wrapping_add(store.participant.state() as u64)
            .wrapping_add(store.log.secured() as u64);
    }
    sum.wrapping_add(line.posts())
}

fn hand_down(stores: &mut [Store], line: &mut Queue) {
    let mut outbox = [Row::default(); 1];
    for _ in 0..line.len() {
        if let Some(heard) = line.take() {
            if let Some(store) = stores.get_mut(usize::from(heard.seat.number())) {
                let sent = store.participant.receive(heard, &mut store.log, &mut outbox).unwrap_or(0);
                line.post_all(&outbox[..sent]);
            }
        }
    }
}

fn hand_up(coordinator: &mut Coordinator, line: &mut Queue) {
    let mut outbox = [Row::default(); SEATS];
    for _ in 0..line.len() {
        if let Some(heard) = line.take() {
            let sent = coordinator.receive(heard, &mut outbox).unwrap_or(0);
            line.post_all(&outbox[..sent]);
        }
    }
}

fn settle_all(stores: &mut [Store], line: &mut Queue) {
    let mut outbox = [Row::default(); 1];
    for store in stores.iter_mut() {
        let sent = store.participant.settle(&mut store.log, &mut outbox).unwrap_or(0);
        line.post_all(&outbox[..sent]);
    }
}

const TRANSACTION: u32 = 7;

fn said(kind: u8, number: u8) -> Option<Notification> {
    Some(Notification { transaction: TRANSACTION, seat: Seat::new(number)?, kind: Kind::of(kind)? })
}

pub fn fault_number<S>(fault: &Fault<S>) -> u8 {
    match fault {
        Fault::ShortOutbox => 1,
        Fault::OtherRight => 2,
        Fault::InvalidState => 3,
        Fault::CannotRegister => 4,
        Fault::OtherTransaction => 5,
        Fault::Misdirected => 6,
        Fault::UnknownTransaction => 7,
        Fault::InvalidPeer { .. } => 8,
        Fault::Inconsistent => 9,
        Fault::LogFull { .. } | Fault::NoPlace { .. } => 10,
    }
}

fn number<S>(answer: Result<usize, Fault<S>>) -> u64 {
    match answer {
        Ok(sent) => sent as u64,
        Err(fault) => u64::from(fault_number(&fault)),
    }
}

#[inline(never)]
pub fn participant_hears(kept: bool, kinds: &[u8], rounds: u32) -> u64 {
    let Some(seat) = Seat::new(3) else { return 0 };
    let mut log = Tray::new();
    let mut outbox = [Row::default(); 1];
    let _ = log.add(Record { transaction: TRANSACTION, entry: Entry::Vote(seat) });
    if kept {
        let _ = log.add(Record { transaction: TRANSACTION, entry: Entry::Kept(seat) });
    }
    log.secure();
    let mut participant = Participant::join(TRANSACTION, seat).restart(&mut log, 0);
    let mut sum = 0u64;
    for _ in 0..rounds {
        for kind in kinds {
            if let Some(heard) = said(*kind, 3) {
                let answer = number(participant.receive(heard, &mut log, &mut outbox));
                sum = sum.wrapping_mul(31).wrapping_add(answer).wrapping_add(u64::from(outbox[0].kind));
            }
        }
    }
    sum
}

#[inline(never)]
pub fn coordinator_hears(committing: bool, kinds: &[u8], rounds: u32) -> u64 {
    let mut outbox = [Row::default(); SEATS];
    let mut log = Tray::new();
    let (mut coordinator, right) = Coordinator::open(TRANSACTION);
    if committing {
        let _ = log.add(Record { transaction: TRANSACTION, entry: Entry::Decision(SeatSet(u16::MAX)) });
        log.secure();
        coordinator = coordinator.restart(&mut log, 0);
    } else {
        for _ in 0..SEATS {
            let _ = coordinator.register(Durability::Durable, &mut outbox);
        }
    }
    let _ = coordinator.ask_commit(right, &mut outbox);
    let mut sum = 0u64;
    for _ in 0..rounds {
        let mut seat = 0u8;
        for kind in kinds {
            if let Some(heard) = said(*kind, seat) {
                let answer = number(coordinator.receive(heard, &mut outbox));
                sum = sum.wrapping_mul(31).wrapping_add(answer).wrapping_add(u64::from(outbox[0].seat));
            }
            seat = if seat < 14 { seat + 1 } else { 0 };
        }
    }
    sum
}

pub fn fill<L: Log>(log: &mut L, held: u32) {
    for i in 0..held {
        let _ = log.add(varied((i % 4 + 1) as u8, i));
    }
    log.secure();
}

pub fn journal_of(places: u32) -> Journal {
    Journal::create(vec![0; places as usize * RECORD_BYTES])
}

fn restart_participant<L: Log>(mut log: L, held: u32, rounds: u32) -> u64 {
    fill(&mut log, held);
    let Some(seat) = Seat::new(3) else { return 0 };
    let mut participant = Participant::join(u32::MAX, seat);
    let mut sum = 0u64;
    for n in 0..rounds {
        participant = participant.restart(&mut log, n);
        sum = sum.wrapping_mul(31).wrapping_add(participant.state() as u64);
    }
    sum
}

fn restart_coordinator<L: Log>(mut log: L, held: u32, rounds: u32) -> u64 {
    fill(&mut log, held);
    let mut outbox = [Row::default(); SEATS];
    let (mut coordinator, right) = Coordinator::open(u32::MAX);
    let _ = coordinator.ask_rollback(right, &mut outbox);
    let mut sum = 0u64;
    for n in 0..rounds {
        coordinator = coordinator.restart(&mut log, n);
        sum = sum.wrapping_mul(31).wrapping_add(coordinator.state() as u64);
    }
    sum
}

#[inline(never)]
pub fn participant_restarts(held: u32, rounds: u32) -> u64 {
    restart_participant(Tray::new(), held, rounds)
}

#[inline(never)]
pub fn participant_restarts_journal(held: u32, rounds: u32) -> u64 {
    restart_participant(journal_of(held), held, rounds)
}

#[inline(never)]
pub fn coordinator_restarts(held: u32, rounds: u32) -> u64 {
    restart_coordinator(Tray::new(), held, rounds)
}

#[inline(never)]
pub fn coordinator_restarts_journal(held: u32, rounds: u32) -> u64 {
    restart_coordinator(journal_of(held), held, rounds)
}

const FIRST: u32 = 1_000_000_000;

fn counted<S>(answer: Result<usize, Fault<S>>) -> u64 {
    match answer {
        Ok(sent) => sent as u64,
        Err(fault) => u64::from(fault_number(&fault)) * 100,
    }
}

fn take_part(transaction: u32, seat: Seat, log: &mut Journal) -> u64 {
    let mut outbox = [Row::default(); 1];
    let mut participant = Participant::join(transaction, seat);
    let prepare = Notification { transaction, seat, kind: Kind::Prepare };
    let commit = Notification { transaction, seat, kind: Kind::Commit };
    let mut sum = counted(participant.receive(prepare, log, &mut outbox));
    sum += counted(participant.vote(Ballot::Prepared, log, &mut outbox));
    sum += counted(participant.settle(log, &mut outbox));
    sum += counted(participant.receive(commit, log, &mut outbox));
    sum += counted(participant.settle(log, &mut outbox));
    sum + participant.state() as u64
}

#[inline(never)]
pub fn participant_steps(held: u32, rounds: u32) -> u64 {
    let mut log = journal_of(held + 2 * rounds);
    let Some(seat) = Seat::new(3) else { return 0 };
    fill(&mut log, held);
    let mut sum = 0u64;
    for i in 0..rounds {
        sum = sum.wrapping_mul(31).wrapping_add(take_part(FIRST.wrapping_add(i), seat, &mut log));
    }
    sum.wrapping_add(log.secured() as u64)
}

fn decide(transaction: u32, log: &mut Journal) -> u64 {
    let mut outbox = [Row::default(); SEATS];
    let (mut coordinator, right) = Coordinator::open(transaction);
    let _ = coordinator.ask_commit(right, &mut outbox);
    let sum = counted(coordinator.settle(log, &mut outbox));
    sum + counted(coordinator.settle(log, &mut outbox)) + coordinator.state() as u64
}

#[inline(never)]
pub fn coordinator_steps(held: u32, rounds: u32) -> u64 {
    let mut log = journal_of(held + rounds);
    fill(&mut log, held);
    let mut sum = 0u64;
    for i in 0..rounds {
        sum = sum.wrapping_mul(31).wrapping_add(decide(FIRST.wrapping_add(i), &mut log));
    }
    sum.wrapping_add(log.secured() as u64)
}

