// The peer of crates/bench_reached: the same questions in plain Rust, as one would write them without proofs.
// Standard input is that of the Rattle program: how scores are drawn, the threshold, the number of earlier scores modulo 4; as many questions as
// bytes.
use std::io::Read;

const SECONDS: usize = 3_600;
const WINDOW: usize = 4;
const SCORE: u8 = 100;

const WRONG_LENGTH: u8 = 1;
const BAD_READING: u8 = 4;
const BAD_THRESHOLD: u8 = 5;

struct Verdict {
    reached: bool,
    second: usize,
    judged: usize,
    read: usize,
}

// No score is left out of the test, so that several are tested at a time.
fn are_scores(scores: &[u8]) -> bool {
    scores.iter().fold(true, |all, &score| all & (score <= SCORE))
}

fn reached(earlier: &[u8], scores: &[u8], threshold: u8) -> Result<Verdict, u8> {
    if scores.len() != SECONDS || !matches!(earlier.len(), 0 | 3) {
        return Err(WRONG_LENGTH);
    }
    if !are_scores(earlier) || !are_scores(scores) {
        return Err(BAD_READING);
    }
    if threshold > SCORE {
        return Err(BAD_THRESHOLD);
    }
    let mut read = 0;
    'seconds: for i in 0..SECONDS {
        for back in 0..WINDOW.min(earlier.len() + i + 1) {
            let score = if back <= i { scores[i - back] } else { earlier[earlier.len() + i - back] };
            read += 1;
            if score >= threshold {
                continue 'seconds;
            }
        }
        return Ok(Verdict { reached: false, second: i + 1, judged: i + 1, read });
    }
    Ok(Verdict { reached: true, second: 0, judged: SECONDS, read })
}

const MODULUS: u64 = 4_294_967_296;

fn next(x: u64) -> u64 {
    (x % MODULUS * 1_664_525 + 1_013_904_223) % MODULUS
}

fn mixed(sum: u64, number: u64) -> u64 {
    (sum % MODULUS * 31 + number % MODULUS) % MODULUS
}

// The score of a second, drawn by x: 95 to 100, 90 to 100, 90 to 94; in the last two every fourth second scores 100, from the first on. Else
// as for `1`, but for the last four seconds, which are below 95.
fn drawn(kind: u8, place: usize, x: u64) -> u8 {
    let x = x / 65_536;
    let last = !matches!(kind, b'0'..=b'2') && place >= SECONDS - 4;
    match kind {
        b'0' => (95 + x % 6) as u8,
        _ if place % 4 == 0 && !last => 100,
        _ if kind == b'2' || last => (90 + x % 5) as u8,
        _ => (90 + x % 11) as u8,
    }
}

fn run(kind: u8, threshold: u8, before: u8, count: u64) -> u64 {
    let earlier = &[90, 91, 100, 100][..before as usize % 4];
    let (mut x, mut scores) = (1, [0; SECONDS]);
    for (place, score) in scores.iter_mut().enumerate() {
        x = next(x);
        *score = drawn(kind, place, x);
    }
    let (mut x, mut sum) = (2, 0);
    for n in 0..count {
        x = next(x);
        let place = n as usize % SECONDS;
        scores[place] = drawn(kind, place, x);
        let (refusal, verdict) = match reached(earlier, &scores, threshold) {
            Ok(verdict) => (0, verdict),
            Err(refusal) => (refusal, Verdict { reached: false, second: 0, judged: 0, read: 0 }),
        };
        let numbers = [refusal as usize, verdict.reached as usize, verdict.second, verdict.judged, verdict.read];
        sum = numbers.iter().fold(sum, |sum, &number| mixed(sum, number as u64));
    }
    sum
}

fn main() {
    let mut input = Vec::new();
    std::io::stdin().read_to_end(&mut input).expect("standard input");
    let count = input.len() as u64;
    input.resize(input.len().max(3), 0);
    println!("asked {count} {}", run(input[0], input[1], input[2], count));
}
