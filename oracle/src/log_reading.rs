//! Document 02's request L1 as a program: the log of scores. The crate has no log, so what is due is what this says.

/// The bytes of a record, and the mark that it begins with.
pub const RECORD: usize = 47;
pub const MARK: [u8; 2] = [0x53, 0x43];

/// What stands in the log for every NaN that is written.
const NAN: u64 = 0x7ff8_0000_0000_0000;

/// The frame number, the bits of the five floats of a score, and 1 for a cut.
pub struct Record {
    pub number: u32,
    pub bits: [u64; 5],
    pub cut: u32,
}

/// Every whole record, and the length of the torn rest.
pub struct Log {
    pub records: Vec<Record>,
    pub torn: usize,
}

/// Behind the mark: four bytes, five times eight, one; the low byte first.
fn record(bytes: &[u8]) -> Record {
    let word = |at: usize| u64::from_le_bytes(bytes[at..at + 8].try_into().unwrap());
    Record {
        number: u32::from_le_bytes(bytes[2..6].try_into().unwrap()),
        bits: [6, 14, 22, 30, 38].map(word),
        cut: u32::from(bytes[46]),
    }
}

/// Refusals 13 and 14 of a record behind the one that has number `last`; 0 for none.
fn fault(record: &Record, last: Option<u32>) -> u32 {
    let is_rising = last.is_none_or(|last| record.number > last);
    if record.cut > 1 {
        return 13;
    }
    if is_rising { 0 } else { 14 }
}

fn last(records: &[Record]) -> Option<u32> {
    records.last().map(|r| r.number)
}

/// The earliest record at fault first. The rest is never tested.
pub fn scan(log: &[u8]) -> Result<Log, u32> {
    let mut records = Vec::new();
    for bytes in log.chunks_exact(RECORD) {
        let next = record(bytes);
        if bytes[..2] != MARK {
            return Err(12);
        }
        let fault = fault(&next, last(&records));
        if fault != 0 {
            return Err(fault);
        }
        records.push(next);
    }
    Ok(Log { records, torn: log.len() % RECORD })
}

/// The same where so many places are lent for numbers, bits and cuts.
pub fn read(log: &[u8], places: [usize; 3]) -> Result<Log, u32> {
    let all = scan(log)?;
    let count = all.records.len();
    let is_short = places[0] < count || places[1] < 5 * count || places[2] < count;
    if is_short { Err(15) } else { Ok(all) }
}

/// The record goes behind the last whole one of the `used` bytes, over a torn rest. The new used length.
pub fn append(log: &mut [u8], used: u64, new: &Record) -> Result<u64, u32> {
    if used > log.len() as u64 {
        return Err(15);
    }
    let old = scan(&log[..used as usize])?;
    let fault = fault(new, last(&old.records));
    if fault != 0 {
        return Err(fault);
    }
    let at = used as usize - old.torn;
    if at + RECORD > log.len() {
        return Err(15);
    }
    put(&mut log[at..at + RECORD], new);
    Ok((at + RECORD) as u64)
}

fn put(place: &mut [u8], new: &Record) {
    place[..2].copy_from_slice(&MARK);
    place[2..6].copy_from_slice(&new.number.to_le_bytes());
    for (eight, &bits) in place[6..46].chunks_mut(8).zip(&new.bits) {
        let bits = if f64::from_bits(bits).is_nan() { NAN } else { bits };
        eight.copy_from_slice(&bits.to_le_bytes());
    }
    place[46] = new.cut as u8;
}
