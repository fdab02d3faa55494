//! The exports of the static library of crate `measured`. A slice crosses as a pointer and a length; a `Global` takes no bytes.

unsafe extern "C" {
    pub safe fn measured_encode(kind: u8, rounds: u32) -> u64;
    fn measured_decode(bytes: *const u8, length: usize, rounds: u32) -> u64;
    fn measured_read(bytes: *const u8, length: usize, out: *mut u8, places: usize) -> usize;
    fn measured_write(kind: u8, transaction: u32, bits: u16, out: *mut u8, places: usize) -> usize;
    fn measured_open(bytes: *const u8, length: usize, count: usize) -> usize;
    pub safe fn measured_commit(stores: u8, rounds: u32) -> u64;
    fn measured_participant_hears(kept: bool, kinds: *const u8, length: usize, rounds: u32) -> u64;
    fn measured_coordinator_hears(committing: bool, kinds: *const u8, length: usize, rounds: u32) -> u64;
    pub safe fn measured_participant_restarts(held: u32, rounds: u32) -> u64;
    pub safe fn measured_participant_restarts_journal(held: u32, rounds: u32) -> u64;
    pub safe fn measured_coordinator_restarts(held: u32, rounds: u32) -> u64;
    pub safe fn measured_coordinator_restarts_journal(held: u32, rounds: u32) -> u64;
    pub safe fn measured_participant_steps(held: u32, rounds: u32) -> u64;
    pub safe fn measured_coordinator_steps(held: u32, rounds: u32) -> u64;
    fn measured_play(calls: *const u8, length: usize, out: *mut u8, places: usize) -> usize;
}

pub fn decode(bytes: &[u8], rounds: u32) -> u64 {
    unsafe { measured_decode(bytes.as_ptr(), bytes.len(), rounds) }
}

pub fn read(bytes: &[u8], out: &mut [u8]) -> usize {
    unsafe { measured_read(bytes.as_ptr(), bytes.len(), out.as_mut_ptr(), out.len()) }
}

pub fn write(kind: u8, transaction: u32, bits: u16, out: &mut [u8]) -> usize {
    unsafe { measured_write(kind, transaction, bits, out.as_mut_ptr(), out.len()) }
}

pub fn open(bytes: &[u8], count: usize) -> usize {
    unsafe { measured_open(bytes.as_ptr(), bytes.len(), count) }
}

pub fn participant_hears(kept: bool, kinds: &[u8], rounds: u32) -> u64 {
    unsafe { measured_participant_hears(kept, kinds.as_ptr(), kinds.len(), rounds) }
}

pub fn coordinator_hears(committing: bool, kinds: &[u8], rounds: u32) -> u64 {
    unsafe { measured_coordinator_hears(committing, kinds.as_ptr(), kinds.len(), rounds) }
}

pub fn play(calls: &[u8], out: &mut [u8]) -> usize {
    unsafe { measured_play(calls.as_ptr(), calls.len(), out.as_mut_ptr(), out.len()) }
}
