//! Writes an input for `ledger`: an open, then posts, replacements, withdrawals and both loss fees by chance, some of them damaged, as many
//! lines as the argument says.
use std::io::{self, BufWriter, Write};

fn main() -> io::Result<()> {
    let lines: u64 = std::env::args().nth(1).and_then(|word| word.parse().ok()).expect("the number of lines");
    let mut out = BufWriter::new(io::stdout().lock());
    let mut state = 20260601u64;
    let mut chance = move |below: u64| {
        state = state.wrapping_mul(6364136223846793005).wrapping_add(1442695040888963407);
        (state >> 33) % below
    };
    for i in 0..lines {
        let mut bytes = [0u8; 12];
        if i == 0 {
            bytes[1] = 31;
        } else {
            bytes[0] = match chance(100) {
                0 => 4,
                1 => 6,
                _ => 1 + chance(3) as u8,
            };
            let at_an_hour = bytes[0] < 4;
            if at_an_hour {
                bytes[1] = 1 + chance(31) as u8;
                bytes[2] = chance(24) as u8;
            }
            if bytes[0] != 3 {
                let dollars = chance(20_001) as i64 - if at_an_hour { 10_000 } else { 100 };
                bytes[3..11].copy_from_slice(&dollars.to_be_bytes());
            }
        }
        bytes[11] = bytes[..11].iter().fold(0u8, |sum, b| sum.wrapping_add(*b));
        let mut text: String = bytes.iter().map(|b| format!("{:02X}", b)).collect();
        if i != 0 {
            match chance(100) {
                0 => text.truncate(23),
                1 => text.replace_range(7..8, "g"),
                2 => text.replace_range(22..24, "5A"),
                _ => {}
            }
        }
        writeln!(out, "{}", text)?;
    }
    out.flush()
}
