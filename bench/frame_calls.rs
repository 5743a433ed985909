// The peer of crates/bench for frames: the same frames read and written in plain Rust, as one would write it without proofs.
// Standard input is that of the Rattle program, twelve numbers; of its lines this peer prints those of its own counts.
use std::io::Read;

const WRONG_LENGTH: u8 = 1;
const BAD_DIGIT: u8 = 11;
const BAD_SUM: u8 = 12;
const BAD_KIND: u8 = 13;

const POST: u8 = 1;
const REPLACE: u8 = 2;
const WITHDRAW: u8 = 3;

struct Entry {
    kind: u8,
    day: u8,
    hour: u8,
    amount: i64,
}

fn digit(b: u8) -> Option<u8> {
    match b {
        b'0'..=b'9' => Some(b - b'0'),
        b'A'..=b'F' => Some(b - b'A' + 10),
        _ => None,
    }
}

fn sum(bytes: &[u8]) -> u8 {
    bytes.iter().fold(0, |sum, b| sum.wrapping_add(*b))
}

// Whether the kind is known and each field that it does not use is zero.
fn in_form(entry: &Entry) -> bool {
    match entry.kind {
        0 => entry.hour == 0 && entry.amount == 0,
        1 | 2 => true,
        3 => entry.amount == 0,
        4 | 6 => entry.day == 0 && entry.hour == 0,
        5 => entry.day == 0 && entry.hour == 0 && entry.amount == 0,
        _ => false,
    }
}

fn read_frame(line: &[u8]) -> Result<Entry, u8> {
    if line.len() != 24 {
        return Err(WRONG_LENGTH);
    }
    let mut bytes = [0u8; 12];
    for (byte, pair) in bytes.iter_mut().zip(line.chunks_exact(2)) {
        let (Some(high), Some(low)) = (digit(pair[0]), digit(pair[1])) else {
            return Err(BAD_DIGIT);
        };
        *byte = high * 16 + low;
    }
    if sum(&bytes[..11]) != bytes[11] {
        return Err(BAD_SUM);
    }
    let entry = Entry {
        kind: bytes[0],
        day: bytes[1],
        hour: bytes[2],
        amount: i64::from_be_bytes(bytes[3..11].try_into().unwrap()),
    };
    if in_form(&entry) { Ok(entry) } else { Err(BAD_KIND) }
}

fn write_frame(entry: &Entry, line: &mut [u8]) -> u8 {
    if line.len() != 24 {
        return WRONG_LENGTH;
    }
    if !in_form(entry) {
        return BAD_KIND;
    }
    let mut bytes = [0u8; 12];
    bytes[0] = entry.kind;
    bytes[1] = entry.day;
    bytes[2] = entry.hour;
    bytes[3..11].copy_from_slice(&entry.amount.to_be_bytes());
    bytes[11] = sum(&bytes[..11]);
    for (pair, byte) in line.chunks_exact_mut(2).zip(bytes) {
        pair[0] = b"0123456789ABCDEF"[(byte >> 4) as usize];
        pair[1] = b"0123456789ABCDEF"[(byte & 15) as usize];
    }
    0
}

const MODULUS: u64 = 4_294_967_296;
const LINES: u64 = 1_024;

fn next(x: u64) -> u64 {
    (x % MODULUS * 1_664_525 + 1_013_904_223) % MODULUS
}

fn mixed(sum: u64, number: u64) -> u64 {
    (sum % MODULUS * 31 + number % MODULUS) % MODULUS
}

fn entry(x: u64) -> Entry {
    let (day, hour) = ((x / 134_217_728 % 32) as u8, (x / 65_536 % 256 * 25 / 256) as u8);
    let amount = (x % 65_536 * 32_768) as i64 - 1_073_741_824;
    let (kind, amount) = match x / 16_777_216 % 16 {
        0..=7 => (POST, amount),
        8..=11 => (REPLACE, amount),
        12..=14 => (WITHDRAW, 0),
        _ => (7, 0),
    };
    Entry { kind, day, hour, amount }
}

fn line(x: u64) -> [u8; 24] {
    let mut line = [b'0'; 24];
    write_frame(&entry(x), &mut line);
    match x / 4_096 % 32 {
        0 => line[17] = b'g',
        1 => line[23] = b'0',
        2 => {
            line.swap(0, 2);
            line.swap(1, 3);
        }
        _ => {}
    }
    line
}

fn make_lines() -> Vec<u8> {
    let (mut x, mut lines) = (1, Vec::new());
    for _ in 0..LINES {
        x = next(x);
        lines.extend_from_slice(&line(x));
    }
    lines
}

fn with_reading(sum: u64, got: Result<Entry, u8>) -> u64 {
    match got {
        Ok(entry) => {
            let place = entry.kind as u64 * 65_536 + entry.day as u64 * 256 + entry.hour as u64;
            mixed(mixed(mixed(sum, place), (entry.amount < 0) as u64), entry.amount.unsigned_abs())
        }
        Err(refusal) => mixed(sum, refusal as u64),
    }
}

fn read(lines: &[u8], calls: u64) -> u64 {
    (0..calls).fold(0, |sum, i| {
        let at = (i % LINES * 24) as usize;
        with_reading(sum, read_frame(&lines[at..at + 24]))
    })
}

fn write(calls: u64) -> u64 {
    let mut line = [b'0'; 24];
    let (mut x, mut sum) = (1, 0);
    for i in 0..calls {
        x = next(x);
        let refusal = write_frame(&entry(x), &mut line);
        sum = mixed(mixed(mixed(sum, refusal as u64), line[(i % 24) as usize] as u64), line[23] as u64);
    }
    sum
}

fn main() {
    let mut input = String::new();
    std::io::stdin().read_to_string(&mut input).expect("standard input");
    let mut numbers = input.split_whitespace().skip(5).map(|n| n.parse::<u64>().expect("a number"));
    let mut number = || numbers.next().unwrap_or(0);
    let (reads, writes) = (number(), number());
    if reads != 0 {
        println!("read {reads} {}", read(&make_lines(), reads));
    }
    if writes != 0 {
        println!("written {writes} {}", write(writes));
    }
}
