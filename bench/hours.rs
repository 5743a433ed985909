// The peer of crates/bench for whole hours: the same hours in plain Rust, as one would write them without proofs, in one pass over the seconds.
// Standard input is that of the Rattle program, thirteen numbers; of its lines this peer prints those of its own counts.
use std::io::Read;

const SECONDS: usize = 3600;
const QUARTER: usize = 900;

const WRONG_LENGTH: u8 = 1;
const BAD_CAPACITY: u8 = 2;
const BAD_MONEY: u8 = 3;
const BAD_READING: u8 = 4;
const BAD_BANDS: u8 = 5;
const BAD_TRANSFER: u8 = 10;
const BAD_REFERENCE: u8 = 19;

// The nearest whole number to n / d, a half going away from zero.
const fn nearest(n: i64, d: i64) -> i64 {
    (n + if n < 0 { -(d / 2) } else { d / 2 }) / d
}

// n / d rounded away from zero.
fn away(n: i64, d: i64) -> i64 {
    (n + (d - 1) * n.signum()) / d
}

const NOMINAL: i64 = 60_000;
const FIRST: i64 = 59_750;
const LAST: i64 = 60_250;
const UPPER: [(i64, i64); 6] = [(59_750, 100), (59_860, 52), (59_980, 9), (60_020, 9), (60_140, -52), (60_250, -100)];
const LOWER: [(i64, i64); 6] = [(59_750, 100), (59_860, 52), (59_980, -9), (60_020, -9), (60_140, -52), (60_250, -100)];

const fn line(corners: &[(i64, i64); 6], f: i64) -> i64 {
    let mut k = 0;
    while corners[k + 1].0 < f {
        k += 1;
    }
    let ((x, y), (to, end)) = (corners[k], corners[k + 1]);
    nearest(y * (to - x) + (end - y) * (f - x), to - x)
}

const fn table() -> [(i64, i64); 501] {
    let mut pairs = [(0, 0); 501];
    let mut k = 0;
    while k < 501 {
        let f = FIRST + k as i64;
        pairs[k] = (line(&UPPER, f), line(&LOWER, f));
        k += 1;
    }
    pairs
}

static CURVE: [(i64, i64); 501] = table();

fn bounds(frequency: i64, reference: i64) -> (i64, i64) {
    CURVE[((frequency - (reference - NOMINAL)).clamp(FIRST, LAST) - FIRST) as usize]
}

fn score(output: i64, frequency: i64, reference: i64) -> u8 {
    let (upper, lower) = bounds(frequency, reference);
    let distance = if output > upper {
        output - upper
    } else if output < lower {
        lower - output
    } else {
        0
    };
    (100 - distance).max(0) as u8
}

fn ramp(last: i64, target: i64, n: usize) -> i64 {
    if n <= 300 {
        last + away((target - last) * n as i64, 300)
    } else {
        target
    }
}

struct Band {
    threshold: i64,
    factor: i64,
}

fn bands_fit(bands: &[Band]) -> bool {
    (1..=16).contains(&bands.len())
        && bands.iter().all(|b| (0..=100).contains(&b.threshold) && (-240..=10).contains(&b.factor))
        && bands.windows(2).all(|w| w[0].threshold > w[1].threshold)
        && bands[bands.len() - 1].threshold == 0
}

struct Terms {
    capacity: i64,
    clearing: i64,
    performance: i64,
    discharge: i64,
    charge: i64,
    targets: [i64; 5],
}

struct Settlement {
    rate: u8,
    factor: i64,
    capacity: i64,
    performance: i64,
    quality: i64,
    energy: i64,
    amount: i64,
}

// The rate of an hour and the sum of each quarter's powers; the scores are handed over once every reading has passed. The first windows look
// back into the earlier scores, three or none. `transfer` is that of a quarter and its second, from 1.
fn judge(
    powers: &[i64],
    frequencies: &[i64],
    capacity: i64,
    reference: i64,
    earlier: &[u8],
    scores: &mut [u8],
    transfer: impl Fn(usize, usize) -> i64,
) -> Result<(u8, [i64; 4]), u8> {
    let mut judged = [0; SECONDS];
    let mut sums = [0; 4];
    let (mut a, mut b, mut c) = match *earlier {
        [] => (0, 0, 0),
        [c, b, a] if a <= 100 && b <= 100 && c <= 100 => (a, b, c),
        _ => return Err(BAD_READING),
    };
    let mut rate = 100;
    let quarters = powers.chunks_exact(QUARTER).zip(frequencies.chunks_exact(QUARTER)).zip(judged.chunks_exact_mut(QUARTER));
    for (q, ((powers, frequencies), judged)) in quarters.enumerate() {
        for (i, ((&power, &frequency), judged)) in powers.iter().zip(frequencies).zip(judged).enumerate() {
            if !(-200_000..=200_000).contains(&power) || !(55_000..=65_000).contains(&frequency) {
                return Err(BAD_READING);
            }
            let s = score(nearest((power - transfer(q, i + 1)) * 100, capacity), frequency, reference);
            *judged = s;
            sums[q] += power;
            rate = rate.min(s.max(a).max(b).max(c));
            (a, b, c) = (s, a, b);
        }
    }
    scores.copy_from_slice(&judged);
    Ok((rate, sums))
}

fn settle(terms: &Terms, bands: &[Band], rate: u8, energy: i64) -> Settlement {
    let factor = bands.iter().find(|b| b.threshold <= rate as i64).map_or(0, |b| b.factor);
    let capacity = nearest(terms.clearing * terms.capacity, 100_000);
    let performance = nearest(terms.performance * terms.capacity, 100_000);
    let quality = nearest((capacity + performance) * factor, 10);
    Settlement { rate, factor, capacity, performance, quality, energy, amount: quality + energy }
}

// Every refusal but that of the readings and the earlier scores.
fn admit(powers: &[i64], frequencies: &[i64], terms: &Terms, reference: i64, bands: &[Band], earlier: &[u8], scores: &[u8]) -> Result<(), u8> {
    if powers.len() != SECONDS || frequencies.len() != SECONDS || scores.len() != SECONDS || !matches!(earlier.len(), 0 | 3) {
        return Err(WRONG_LENGTH);
    }
    if !(1..=100_000).contains(&terms.capacity) {
        return Err(BAD_CAPACITY);
    }
    if !(59_500..=60_500).contains(&reference) {
        return Err(BAD_REFERENCE);
    }
    let prices = [terms.clearing, terms.performance, terms.discharge, terms.charge];
    if !prices.iter().all(|p| (0..=10_000_000).contains(p)) {
        return Err(BAD_MONEY);
    }
    if !bands_fit(bands) {
        return Err(BAD_BANDS);
    }
    if !terms.targets.iter().all(|t| (-100_000..=100_000).contains(t)) {
        return Err(BAD_TRANSFER);
    }
    Ok(())
}

fn hour(
    powers: &[i64],
    frequencies: &[i64],
    terms: &Terms,
    reference: i64,
    bands: &[Band],
    earlier: &[u8],
    scores: &mut [u8],
) -> Result<Settlement, u8> {
    admit(powers, frequencies, terms, reference, bands, earlier, scores)?;
    let targets = &terms.targets;
    let (rate, sums) = judge(powers, frequencies, terms.capacity, reference, earlier, scores, |q, n| ramp(targets[q], targets[q + 1], n))?;
    let parts = sums.iter().zip(&targets[1..]).map(|(sum, target)| match target.signum() {
        1 => sum * terms.discharge,
        -1 => -sum * terms.charge,
        _ => 0,
    });
    Ok(settle(terms, bands, rate, nearest(parts.sum(), 360_000_000)))
}

fn dreg_hour(
    powers: &[i64],
    frequencies: &[i64],
    capacity: i64,
    reference: i64,
    clearing: i64,
    performance: i64,
    bands: &[Band],
    earlier: &[u8],
    scores: &mut [u8],
) -> Result<Settlement, u8> {
    let terms = Terms { capacity, clearing, performance, discharge: 0, charge: 0, targets: [0; 5] };
    admit(powers, frequencies, &terms, reference, bands, earlier, scores)?;
    let (rate, _) = judge(powers, frequencies, capacity, reference, earlier, scores, |_, _| 0)?;
    Ok(settle(&terms, bands, rate, 0))
}

// Where an sReg hour ends: outside an event; in its first ten seconds, with the start power and how many are scored; in it from then on; in
// the ten seconds after it, with how many are left.
#[derive(Clone, Copy)]
enum State {
    Outside,
    Responding { start: i64, scored: u64 },
    Holding { start: i64 },
    Recovering { left: u64 },
}

fn is_state(state: State) -> bool {
    let is_power = |power| (-200_000..=200_000).contains(&power);
    match state {
        State::Outside => true,
        State::Responding { start, scored } => is_power(start) && (1..=9).contains(&scored),
        State::Holding { start } => is_power(start),
        State::Recovering { left } => (1..=10).contains(&left),
    }
}

fn percent(power: i64, capacity: i64) -> u8 {
    if power <= 0 {
        0
    } else if power >= capacity {
        100
    } else {
        nearest(power * 100, capacity) as u8
    }
}

// A second's score, and the state after it.
fn second(state: State, power: i64, frequency: i64, capacity: i64) -> (u8, State) {
    let (falls, returns) = (frequency <= 59_880, frequency >= 59_980);
    match state {
        State::Outside | State::Recovering { .. } if falls => (100, State::Responding { start: power, scored: 1 }),
        State::Outside => (percent(power, capacity), state),
        State::Recovering { left: 1 } => (100, State::Outside),
        State::Recovering { left } => (100, State::Recovering { left: left - 1 }),
        State::Responding { .. } if returns => (100, State::Recovering { left: 10 }),
        State::Responding { start, scored: 9 } => (100, State::Holding { start }),
        State::Responding { start, scored } => (100, State::Responding { start, scored: scored + 1 }),
        State::Holding { start } => (percent(start - power, capacity), if returns { State::Recovering { left: 10 } } else { state }),
    }
}

fn sreg_hour(
    powers: &[i64],
    frequencies: &[i64],
    capacity: i64,
    clearing: i64,
    performance: i64,
    bands: &[Band],
    earlier: &[u8],
    state: State,
    scores: &mut [u8],
) -> Result<(Settlement, State), u8> {
    let terms = Terms { capacity, clearing, performance, discharge: 0, charge: 0, targets: [0; 5] };
    admit(powers, frequencies, &terms, NOMINAL, bands, earlier, scores)?;
    let (mut a, mut b, mut c) = match *earlier {
        [] => (0, 0, 0),
        [c, b, a] if a <= 100 && b <= 100 && c <= 100 => (a, b, c),
        _ => return Err(BAD_READING),
    };
    if !is_state(state) {
        return Err(BAD_READING);
    }
    let mut judged = [0; SECONDS];
    let (mut rate, mut reached) = (100, state);
    for ((&power, &frequency), judged) in powers.iter().zip(frequencies).zip(&mut judged) {
        if !(-200_000..=200_000).contains(&power) || !(55_000..=65_000).contains(&frequency) {
            return Err(BAD_READING);
        }
        let (s, after) = second(reached, power, frequency, capacity);
        *judged = s;
        reached = after;
        rate = rate.min(s.max(a).max(b).max(c));
        (a, b, c) = (s, a, b);
    }
    scores.copy_from_slice(&judged);
    Ok((settle(&terms, bands, rate, 0), reached))
}

const MODULUS: u64 = 4_294_967_296;

fn next(x: u64) -> u64 {
    (x % MODULUS * 1_664_525 + 1_013_904_223) % MODULUS
}

fn wave(second: usize, x: u64) -> u64 {
    let turn = (second as u64 % 600 * 2 + x / 65_536 % 16) % 1200;
    if turn < 600 { turn } else { 1200 - turn }
}

fn drawn(second: usize, x: u64, capacity: u64, targets: &[i64; 5]) -> i64 {
    let right = 550 - wave(second, x).clamp(50, 550);
    let given = if x / 16_777_216 % 64 == 0 { 500 - right } else { right };
    let part = given + x / 1_048_576 % 33;
    let quarter = second / QUARTER;
    (part * capacity / 250) as i64 - (capacity * 266 / 250) as i64 + ramp(targets[quarter], targets[quarter + 1], second % QUARTER + 1)
}

fn mixed(sum: u64, number: u64) -> u64 {
    (sum % MODULUS * 31 + number % MODULUS) % MODULUS
}

fn with_settlement(sum: u64, answer: &Result<Settlement, u8>) -> u64 {
    let (refusal, rate, numbers) = match answer {
        Ok(s) => (0, s.rate, [s.factor, s.capacity, s.performance, s.quality, s.energy, s.amount]),
        Err(k) => (*k, 0, [0; 6]),
    };
    let sum = mixed(mixed(sum, refusal as u64), rate as u64);
    numbers.iter().fold(sum, |s, &z| mixed(mixed(s, (z < 0) as u64), z.unsigned_abs()))
}

const LIST_S: [(i64, i64); 7] = [(95, 10), (94, 8), (93, 6), (92, 4), (91, 2), (70, 0), (0, -10)];

fn run(shifting: bool, capacity: u64, reference: u64, targets: [i64; 5], count: u64) -> u64 {
    let bands = LIST_S.map(|(threshold, factor)| Band { threshold, factor });
    let terms = Terms { capacity: capacity as i64, clearing: 44_000, performance: 35_000, discharge: 50_000, charge: 30_000, targets };
    let (mut powers, mut frequencies, mut scores) = ([0; SECONDS], [0; SECONDS], [0; SECONDS]);
    let mut x = 1;
    for i in 0..SECONDS {
        x = next(x);
        powers[i] = drawn(i, x, capacity, &targets);
        frequencies[i] = 59_700 + wave(i, x) as i64;
    }
    let (mut x, mut sum) = (2, 0);
    for n in 0..count {
        x = next(x);
        let place = n as usize % SECONDS;
        powers[place] = drawn(place, x, capacity, &targets);
        let earlier = [scores[SECONDS - 3], scores[SECONDS - 2], scores[SECONDS - 1]];
        let answer = if shifting {
            hour(&powers, &frequencies, &terms, reference as i64, &bands, &earlier, &mut scores)
        } else {
            dreg_hour(&powers, &frequencies, terms.capacity, reference as i64, terms.clearing, terms.performance, &bands, &earlier, &mut scores)
        };
        sum = with_settlement(sum, &answer);
    }
    scores.iter().fold(sum, |s, &x| mixed(s, x as u64))
}

fn with_state(sum: u64, state: State) -> u64 {
    let (kind, power, count) = match state {
        State::Outside => (0, 0, 0),
        State::Responding { start, scored } => (1, start, scored),
        State::Holding { start } => (2, start, 0),
        State::Recovering { left } => (3, 0, left),
    };
    mixed(mixed(mixed(mixed(sum, kind), (power < 0) as u64), power.unsigned_abs()), count)
}

// A consumption of 0 to 1.3 times the capacity of 10 MW.
fn consumed(x: u64) -> i64 {
    (x / 65_536 % 13_000) as i64
}

fn run_sreg(by_chance: bool, capacity: u64, count: u64) -> u64 {
    let bands = LIST_S.map(|(threshold, factor)| Band { threshold, factor });
    let (mut powers, mut frequencies, mut scores) = ([0; SECONDS], [0; SECONDS], [0; SECONDS]);
    let mut x = 1;
    for i in 0..SECONDS {
        x = next(x);
        powers[i] = consumed(x);
    }
    let mut x = 7;
    for i in 0..SECONDS {
        x = next(x);
        frequencies[i] = 59_700 + if by_chance { x / 65_536 % 601 } else { wave(i, x) } as i64;
    }
    let (mut x, mut sum, mut state) = (2, 0, State::Outside);
    for n in 0..count {
        x = next(x);
        powers[n as usize % SECONDS] = consumed(x);
        let earlier = [scores[SECONDS - 3], scores[SECONDS - 2], scores[SECONDS - 1]];
        let answer = sreg_hour(&powers, &frequencies, capacity as i64, 44_000, 35_000, &bands, &earlier, state, &mut scores);
        let (answer, after) = match answer {
            Ok((settlement, after)) => (Ok(settlement), after),
            Err(number) => (Err(number), State::Outside),
        };
        sum = with_settlement(sum, &answer);
        state = after;
        sum = with_state(sum, state);
    }
    scores.iter().fold(sum, |s, &x| mixed(s, x as u64))
}

fn main() {
    let mut input = String::new();
    std::io::stdin().read_to_string(&mut input).expect("standard input");
    let mut numbers = input.split_whitespace().skip(7).map(|n| n.parse::<u64>().expect("a number"));
    let mut number = || numbers.next().unwrap_or(0);
    let (capacity, reference, plain, shifting) = (number(), number(), number(), number());
    let (wandering, by_chance) = (number(), number());
    if plain != 0 {
        println!("dReg {plain} {}", run(false, capacity, reference, [0; 5], plain));
    }
    if shifting != 0 {
        println!("E-dReg {shifting} {}", run(true, capacity, reference, [2_000, -3_000, 5_000, -8_000, 4_000], shifting));
    }
    if wandering != 0 {
        println!("sReg {wandering} {}", run_sreg(false, capacity, wandering));
    }
    if by_chance != 0 {
        println!("sReg, by chance {by_chance} {}", run_sreg(true, capacity, by_chance));
    }
}
