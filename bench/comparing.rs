//! The comparison: the proved library and the twin must answer alike.
use crate::play::{Cover, Told, play};
use crate::random::Random;
use crate::twin::record::{RECORD_BYTES, Record};
use crate::{loops, proved};

/// How many bytes a play has: a setting and 511 calls.
const PLAY_BYTES: usize = 4 * 512;

/// How many records are read in one call.
const BATCH: usize = 4096;

const LOGS: [&str; 4] = ["a tray", "a gatherer over a tray", "a journal", "a gatherer over a journal"];

/// Each comparison answers what it did, or the first difference in words.
type Compared = Result<String, String>;

pub fn compare(calls: u64, records: u64) -> bool {
    let kinds: [(&str, &dyn Fn() -> Compared); 5] = [
        ("calls", &|| compare_calls(calls)),
        ("records", &|| compare_records(records)),
        ("encodings", &compare_encodings),
        ("openings", &|| compare_openings(records / 400)),
        ("loops", &compare_loops),
    ];
    let mut passed = 0;
    for (name, compare) in &kinds {
        match compare() {
            Ok(did) => {
                println!("{name}: alike: {did}");
                passed += 1;
            }
            Err(difference) => println!("{name}: DIFFERENT: {difference}"),
        }
    }
    println!("bench/compare: {passed} passed, {} failed", kinds.len() - passed);
    passed == kinds.len()
}

fn compare_calls(calls: u64) -> Compared {
    let plays = calls.div_ceil(PLAY_BYTES as u64 / 4 - 1);
    let mut random = Random::new(1);
    let mut bytes = [0; PLAY_BYTES];
    let mut out = vec![0; 64 * PLAY_BYTES];
    let mut told = Told::default();
    let mut cover = Cover::default();
    for number in 0..plays {
        random.fill(&mut bytes);
        if number % 2 == 1 {
            lead(&mut random, &mut bytes);
        }
        play(&bytes, &mut told, &mut cover);
        let length = proved::play(&bytes, &mut out);
        if out[..length] != told.bytes[..] {
            return Err(first_difference(number, &bytes, &out[..length], &told));
        }
    }
    Ok(format!(
        "{plays} plays of {} calls each; played were {}",
        PLAY_BYTES / 4 - 1,
        covered(&cover)
    ))
}

/// Leads a play of any bytes to where transactions get on: each is opened, participants register and join, commit is asked for, and then most calls are those that it needs, with others among them.
fn lead(random: &mut Random, bytes: &mut [u8; PLAY_BYTES]) {
    let mut calls = bytes.as_chunks_mut().0.iter_mut().skip(1);
    'plays: loop {
        // one in eight has more participants than there are seats
        let registering = if random.below(8) == 0 { 18 } else { random.below(5) };
        let volatile = random.below(3);
        let length = registering + 3 + random.below(200);
        for i in 0..length {
            let Some([call, _, what, number]) = calls.next() else { break 'plays };
            if random.below(32) == 0 {
                continue;
            }
            (*call, *what) = if i == 0 {
                (19, 0)
            } else if i <= registering {
                (11 - u8::from(random.below(8) < volatile), *what)
            } else if i == registering + 1 {
                (20, 1)
            } else if i == registering + 2 {
                (12, u8::from(random.below(16) > 0))
            } else {
                needed(random.below(64), *what, number)
            };
            *number |= 2;
        }
    }
}

/// A call that a transaction needs on its way, or that disturbs it.
fn needed(drawn: u64, what: u8, number: &mut u8) -> (u8, u8) {
    match drawn {
        0..20 => (0, what),
        20..29 => (21, what | 2),
        29..38 => (24, what),
        38..42 => (13, what),
        42..47 => (29, what % 2),
        47 => (29, what % 224),
        48..51 => (18, what % 224),
        51..54 => (30, what),
        54..58 => {
            // as many bytes as few records have
            *number %= 64;
            (if drawn < 57 { 28 } else { 17 }, 1)
        }
        58..61 => (27, what | 1),
        61 => (16, 1),
        62 => (27, 0),
        _ => (21, what),
    }
}

fn covered(cover: &Cover) -> String {
    let own = cover.participant.iter().flatten().filter(|n| **n > 0).count();
    let cells = cover.coordinator.iter().flatten().flatten().filter(|n| **n > 0).count();
    let faults: Vec<String> = (1..12).filter(|i| cover.faults[*i] > 0).map(|i| i.to_string()).collect();
    format!("{own} of the participant's 30 cells, {cells} of the coordinator's by state, standing and kind, and the faults {}", faults.join(", "))
}

fn first_difference(number: u64, bytes: &[u8], out: &[u8], told: &Told) -> String {
    let at = (0..).find(|i| out.get(*i) != told.bytes.get(*i)).unwrap_or(0);
    let call = told.begins.partition_point(|begin| *begin <= at) - 1;
    let begin = told.begins[call];
    let end = told.begins.get(call + 1).copied().unwrap_or(told.bytes.len());
    let logs = LOGS[usize::from(bytes[0] % 4)];
    let what = match bytes.as_chunks::<4>().0.get(call + 1) {
        Some(four) => format!("call {call} ({}), bytes {four:?}", in_words(*four)),
        None => String::from("the end, where the logs are told"),
    };
    format!(
        "play {number} over {logs}, setting {:?}: {what}: byte {} of what was told is {:?} of the library and {:?} of the twin\n  library: {:?}\n  twin:    {:?}",
        &bytes[..4],
        at - begin,
        out.get(at),
        told.bytes.get(at),
        &out[begin.min(out.len())..end.min(out.len())],
        &told.bytes[begin..end]
    )
}

fn in_words([call, who, what, _]: [u8; 4]) -> String {
    let store = who % 4;
    match call % 32 {
        0..=9 => String::from("takes from the line and gives to the receiver"),
        10 => String::from("registers a volatile participant"),
        11 => String::from("registers a durable participant"),
        12 if what % 8 == 0 => String::from("asks to roll back"),
        12 => String::from("asks to commit"),
        13..=15 => String::from("settles the coordinator"),
        16 if what % 8 == 0 => String::from("expires the coordinator"),
        16 => String::from("resends the coordinator"),
        17 if what % 2 == 1 => String::from("restarts the coordinator"),
        17 => String::from("looks at the coordinator"),
        18 => format!("gives the coordinator a notification from seat {}", who % 16),
        19 => String::from("opens the next transaction, or nothing"),
        20 => String::from("joins participants"),
        21..=23 => format!("votes at participant {store}"),
        24..=26 => format!("settles participant {store}"),
        27 if what % 8 == 0 => format!("expires participant {store}"),
        27 => format!("resends participant {store}"),
        28 if what % 2 == 1 => format!("restarts participant {store}"),
        28 => format!("looks at participant {store}"),
        29 => format!("gives participant {store} a notification"),
        30 => format!("asks the log {}", who % 5),
        _ => String::from("asks the coordinator to commit with another's right"),
    }
}

/// A record's bytes: well formed, up to three bytes changed, its cells drawn small, or any bytes.
fn draw(random: &mut Random, bytes: &mut [u8; RECORD_BYTES]) {
    let shape = random.below(8);
    if shape == 0 {
        return random.fill(bytes);
    }
    let number = random.next();
    if shape < 3 {
        random.fill(&mut bytes[..4]);
        bytes[4] = (number % 6) as u8;
        bytes[5] = (number >> 8) as u8 % 10;
        let runs = usize::from(bytes[5]).min(8);
        let (mut at, mut cells) = (0, number >> 16);
        for pair in bytes[6..].chunks_exact_mut(2) {
            pair.fill(0);
        }
        for pair in bytes[6..].chunks_exact_mut(2).take(runs) {
            at += (cells & 3) as u8;
            pair[0] = at;
            pair[1] = (cells >> 2 & 3) as u8;
            at += pair[1];
            cells >>= 4;
        }
        return;
    }
    let sparse = if number & 1 << 40 == 0 { u16::MAX } else { (number >> 44) as u16 };
    let kind = 1 + (number >> 32) as u8 % 4;
    *bytes = loops::made(kind, number as u32, (number >> 16) as u16 & sparse).encode();
    for _ in 0..shape - 3 {
        let drawn = random.next();
        let at = (drawn >> 32) as usize % RECORD_BYTES;
        bytes[at] = if drawn & 1 == 0 { drawn as u8 >> 1 } else { (drawn >> 8) as u8 % 17 };
    }
}

fn compare_records(records: u64) -> Compared {
    let mut random = Random::new(2);
    let mut bytes = vec![0; BATCH * RECORD_BYTES];
    let mut out = vec![0; BATCH * 7];
    let mut told = Vec::new();
    let mut well = 0;
    for _ in 0..records.div_ceil(BATCH as u64) {
        for part in bytes.as_chunks_mut().0 {
            draw(&mut random, part);
        }
        loops::read(&bytes, &mut told);
        let length = proved::read(&bytes, &mut out);
        if out[..length] != told[..] {
            return Err(first_record(&bytes));
        }
        well += (told.len() - BATCH) / 6;
    }
    Ok(format!("{} records read, {well} of them well formed", records.div_ceil(BATCH as u64) * BATCH as u64))
}

fn first_record(bytes: &[u8]) -> String {
    let mut told = Vec::new();
    let mut out = [0; 7];
    for part in bytes.as_chunks::<RECORD_BYTES>().0 {
        loops::read(part, &mut told);
        let length = proved::read(part, &mut out);
        if out[..length] != told[..] {
            let twin = Record::decode(part);
            return format!("the bytes {part:02x?}: the library reads {:?} (kind, transaction, seats), and the twin {twin:?}", &out[..length]);
        }
    }
    String::from("each record alone is read alike, and all in one call are not")
}

fn compare_encodings() -> Compared {
    let mut count = 0;
    for bits in 0..=u16::MAX {
        let transaction = u32::from(bits).wrapping_mul(65_521);
        for kind in 1..5 {
            let mut out = [0; RECORD_BYTES];
            let length = proved::write(kind, transaction, bits, &mut out);
            let record = loops::made(kind, transaction, bits);
            if length != RECORD_BYTES || out != record.encode() {
                return Err(format!("{record:?}: the library writes {out:02x?}, and the twin {:02x?}", record.encode()));
            }
            if Record::decode(&out) != Some(record) {
                return Err(format!("{record:?} is not read back by the twin"));
            }
            count += 1;
        }
    }
    Ok(format!("{count} records written, of every set of seats and every kind"))
}

fn compare_openings(openings: u64) -> Compared {
    let mut random = Random::new(3);
    let mut opened = 0;
    for _ in 0..openings {
        let mut bytes = [0; 10 * RECORD_BYTES];
        random.fill(&mut bytes);
        let count = random.below(12) as usize;
        let length = random.below(bytes.len() as u64 + 1) as usize;
        for part in bytes.as_chunks_mut::<RECORD_BYTES>().0 {
            let number = random.next();
            let bits = (number >> 16) as u16;
            *part = loops::made(1 + number as u8 % 4, number as u32, bits).encode();
            if number >> 60 == 0 {
                part[(number >> 32) as usize % RECORD_BYTES] ^= 1;
            }
        }
        let bytes = &bytes[..length];
        let library = proved::open(bytes, count);
        let twin = loops::open(bytes, count);
        // both answer the count, or the first malformed record
        let (Ok(number) | Err(number)) = twin;
        if library != number {
            return Err(format!("{count} records in {length} bytes {bytes:02x?}: the library says {library}, and the twin {twin:?}"));
        }
        opened += u64::from(twin.is_ok());
    }
    Ok(format!("{openings} journals, {opened} of them opened"))
}

/// Kinds of notifications, in a fixed disorder.
pub fn kinds(first: u8, count: u64, length: usize) -> Vec<u8> {
    let mut random = Random::new(4);
    (0..length).map(|_| first + random.below(count) as u8).collect()
}

/// Well-formed records of one kind.
pub fn written(kind: u8, count: u32) -> Vec<u8> {
    (0..count).flat_map(|i| loops::varied(kind, i).encode()).collect()
}

fn compare_loops() -> Compared {
    let mut count = 0;
    let mut same = |name: String, library: u64, twin: u64| {
        count += 1;
        if library == twin { Ok(()) } else { Err(format!("{name}: the sum is {library} of the library and {twin} of the twin")) }
    };
    for kind in 1..5 {
        same(format!("encoding kind {kind}"), proved::measured_encode(kind, 10_000), loops::encode(kind, 10_000))?;
        let bytes = written(kind, 1000);
        same(format!("decoding kind {kind}"), proved::decode(&bytes, 2), loops::decode(&bytes, 2))?;
    }
    for stores in 0..16 {
        same(format!("{stores} stores"), proved::measured_commit(stores, 50), loops::commit(stores, 50))?;
    }
    for either in [false, true] {
        let (down, up) = (kinds(1, 3, 1000), kinds(4, 4, 1000));
        same(String::from("a participant hears"), proved::participant_hears(either, &down, 2), loops::participant_hears(either, &down, 2))?;
        same(String::from("a coordinator hears"), proved::coordinator_hears(either, &up, 2), loops::coordinator_hears(either, &up, 2))?;
    }
    for held in [0, 1, 8, 32, 1000] {
        let places = format!("a log that holds {held} records");
        same(places.clone(), proved::measured_participant_restarts(held, 3), loops::participant_restarts(held, 3))?;
        same(places.clone(), proved::measured_participant_restarts_journal(held, 3), loops::participant_restarts_journal(held, 3))?;
        same(places.clone(), proved::measured_coordinator_restarts(held, 3), loops::coordinator_restarts(held, 3))?;
        same(places.clone(), proved::measured_coordinator_restarts_journal(held, 3), loops::coordinator_restarts_journal(held, 3))?;
        same(places.clone(), proved::measured_participant_steps(held, 100), loops::participant_steps(held, 100))?;
        same(places, proved::measured_coordinator_steps(held, 100), loops::coordinator_steps(held, 100))?;
    }
    Ok(format!("{count} loops come to the same sums"))
}
