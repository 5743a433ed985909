//! The peer of the program `ledger`: the same answers, with std's buffered input and output and the month kept in place.
use std::io::{self, BufRead, BufReader, BufWriter, Write};

const MOST: u64 = 1_000_000;
const AMOUNT: i64 = 1_000_000_000;
const FEE: i64 = 100_000_000_000;

struct Entry {
    kind: u8,
    day: u8,
    hour: u8,
    amount: i64,
}

fn digit(b: u8) -> Option<u8> {
    match b {
        b'0'..=b'9' => Some(b - b'0'),
        b'A'..=b'F' => Some(b - b'A' + 10),
        _ => None,
    }
}

fn read(line: &[u8]) -> Result<Entry, u8> {
    if line.len() != 24 {
        return Err(1);
    }
    let mut bytes = [0u8; 12];
    for (byte, pair) in bytes.iter_mut().zip(line.chunks_exact(2)) {
        let (Some(high), Some(low)) = (digit(pair[0]), digit(pair[1])) else {
            return Err(11);
        };
        *byte = high * 16 + low;
    }
    if bytes[..11].iter().fold(0u8, |sum, b| sum.wrapping_add(*b)) != bytes[11] {
        return Err(12);
    }
    let entry = Entry {
        kind: bytes[0],
        day: bytes[1],
        hour: bytes[2],
        amount: i64::from_be_bytes(bytes[3..11].try_into().unwrap()),
    };
    let clean = match entry.kind {
        0 => entry.hour == 0 && entry.amount == 0,
        1 | 2 => true,
        3 => entry.amount == 0,
        4 | 6 => entry.day == 0 && entry.hour == 0,
        5 => entry.day == 0 && entry.hour == 0 && entry.amount == 0,
        _ => false,
    };
    if clean { Ok(entry) } else { Err(13) }
}

struct Month {
    days: u8,
    closed: bool,
    basic: i64,
    excess: i64,
    hours: [Option<i64>; 744],
}

impl Month {
    fn take(&mut self, entry: &Entry) -> u8 {
        if self.closed {
            return 9;
        }
        match entry.kind {
            4 | 6 => {
                if !(0..=FEE).contains(&entry.amount) {
                    return 3;
                }
                let fee = if entry.kind == 4 { &mut self.basic } else { &mut self.excess };
                *fee = entry.amount;
                return 0;
            }
            5 => {
                self.closed = true;
                return 0;
            }
            _ => {}
        }
        if entry.day < 1 || entry.day > self.days || entry.hour > 23 {
            return 6;
        }
        if entry.kind != 3 && !(-AMOUNT..=AMOUNT).contains(&entry.amount) {
            return 3;
        }
        let place = &mut self.hours[(entry.day as usize - 1) * 24 + entry.hour as usize];
        match (entry.kind, place.is_some()) {
            (1, true) => 7,
            (2 | 3, false) => 8,
            (3, true) => {
                *place = None;
                0
            }
            _ => {
                *place = Some(entry.amount);
                0
            }
        }
    }
}

fn answer(month: &mut Option<Month>, line: &[u8]) -> u8 {
    let entry = match read(line) {
        Ok(entry) => entry,
        Err(refusal) => return refusal,
    };
    match (month.as_mut(), entry.kind) {
        (Some(_), 0) => 14,
        (None, 0) if !(28..=31).contains(&entry.day) => 6,
        (None, 0) => {
            *month = Some(Month {
                days: entry.day,
                closed: false,
                basic: 0,
                excess: 0,
                hours: [None; 744],
            });
            0
        }
        (Some(month), _) => month.take(&entry),
        (None, _) => 14,
    }
}

fn main() -> io::Result<()> {
    let mut input = BufReader::with_capacity(65536, io::stdin().lock());
    let mut out = BufWriter::with_capacity(65536, io::stdout().lock());
    let mut month = None;
    let mut line = Vec::new();
    let mut number = 0;
    while number < MOST && input.read_until(b'\n', &mut line)? != 0 {
        number += 1;
        let text = line.strip_suffix(b"\n").unwrap_or(&line);
        writeln!(out, "{} {}", number, answer(&mut month, text))?;
        line.clear();
    }
    let total = month.map_or(0, |month| month.hours.iter().flatten().sum::<i64>() - month.basic - month.excess);
    writeln!(out, "total {}", total)?;
    out.flush()
}
