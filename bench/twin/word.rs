//! Notifications, their rows, and faults.
use super::log::Full;
use super::record::Seat;

#[derive(Clone, Copy, PartialEq, Eq, Debug)]
pub enum Kind {
    Prepare = 1,
    Commit = 2,
    Rollback = 3,
    Prepared = 4,
    ReadOnly = 5,
    Aborted = 6,
    Committed = 7,
}

impl Kind {
    pub fn of(number: u8) -> Option<Kind> {
        Some(match number {
            1 => Kind::Prepare,
            2 => Kind::Commit,
            3 => Kind::Rollback,
            4 => Kind::Prepared,
            5 => Kind::ReadOnly,
            6 => Kind::Aborted,
            7 => Kind::Committed,
            _ => return None,
        })
    }

    /// Whether it goes to the coordinator.
    pub fn goes_up(self) -> bool {
        self as u8 >= Kind::Prepared as u8
    }
}

#[derive(Clone, Copy, PartialEq, Eq, Debug)]
pub struct Notification {
    pub transaction: u32,
    pub seat: Seat,
    pub kind: Kind,
}

/// A notification as plain numbers, read back with a check.
#[derive(Clone, Copy, PartialEq, Eq, Debug, Default)]
pub struct Row {
    pub transaction: u32,
    pub seat: u8,
    pub kind: u8,
}

impl From<Notification> for Row {
    fn from(notification: Notification) -> Row {
        Row {
            transaction: notification.transaction,
            seat: notification.seat.number(),
            kind: notification.kind as u8,
        }
    }
}

impl Row {
    pub fn notification(self) -> Option<Notification> {
        Some(Notification {
            transaction: self.transaction,
            seat: Seat::new(self.seat)?,
            kind: Kind::of(self.kind)?,
        })
    }
}

/// Why a call refused; `S` is the state of the party that was called.
#[derive(Clone, Copy, PartialEq, Eq, Debug)]
pub enum Fault<S> {
    ShortOutbox,
    OtherRight,
    InvalidState,
    CannotRegister,
    OtherTransaction,
    Misdirected,
    UnknownTransaction,
    InvalidPeer { seat: Seat, state: S, sent: usize },
    Inconsistent,
    LogFull { full: Full, sent: usize },
    NoPlace { spare: usize, sent: usize },
}
