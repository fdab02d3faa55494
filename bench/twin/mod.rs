//! The same rules once more, in plain Rust, written from docs/PROTOCOL.md, docs/LOGS.md, docs/LINES.md and docs/JOURNAL.md.
pub mod coordinator;
pub mod gatherer;
pub mod journal;
pub mod line;
pub mod log;
pub mod participant;
pub mod record;
pub mod tray;
pub mod word;
