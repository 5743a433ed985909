//! Logger pairs (#105): what `desk` is asked about them, what `import` is fed, and `ledger` in its place: one function
//! a part, each writing the text of one run.

use crate::draw::{edges, Draw};
use crate::frames::{damage, open, put, put_frame, Text};
use crate::logger::{digits, Sent, BITS, KIND, PLACE};
use crate::questions::{ask, ask_any, ask_edges, unread_hour};
use crate::rules::{Limits, FREQUENCY, POWER};

const SECONDS: usize = 3600;
const SIGN: u32 = 1 << 31;

// ---- floats: above zero they stand in the order of their bits, below it in the other

/// The float nearest to n + 1/2 millihertz, which is that tie where a float is: a division is rounded to the nearest.
fn frequency_tie(n: i64) -> u32 {
    ((n as f32 + 0.5) / 1000.0).to_bits()
}

/// The float of n + 1/2 kilowatts.
fn power_tie(n: i64) -> u32 {
    (n as f32 + 0.5).to_bits()
}

/// The float so many floats farther from zero.
fn farther(bits: u32, floats: i64) -> u32 {
    (i64::from(bits) + floats) as u32
}

/// A float from the one to the other, both above zero.
fn float_between(draw: &mut Draw, low: f32, high: f32) -> u32 {
    draw.between(low.to_bits().into(), high.to_bits().into()) as u32
}

/// A frequency that is taken: at an end, at or beside a tie, or anywhere.
fn fit_frequency(draw: &mut Draw) -> u32 {
    let tie = frequency_tie(draw.between(FREQUENCY.0, FREQUENCY.1 - 1));
    match draw.below(16) {
        0 => draw.of(&[farther(frequency_tie(FREQUENCY.0 - 1), 1), farther(frequency_tie(FREQUENCY.1), -1)]),
        1..=3 => farther(tie, draw.between(-1, 1)),
        _ => float_between(draw, 55.0, 65.0),
    }
}

/// A power that is taken: at an end or next to zero, at or beside a tie, of any exponent, or anywhere.
fn fit_power(draw: &mut Draw) -> u32 {
    let sign = draw.of(&[0, SIGN]);
    let tie = power_tie(draw.between(POWER.0, POWER.1 - 1));
    match draw.below(16) {
        0 => sign | draw.of(&[0, 1, 0x7F_FFFF, 0x80_0000, farther(power_tie(POWER.1), -1)]),
        1..=3 => farther(tie, draw.between(-1, 1)),
        4..=7 => sign | float_between(draw, 0.25, 200_000.0),
        _ => (draw.between(-200_000_000, 200_000_000) as f32 / 1000.0).to_bits(),
    }
}

/// NaN or an infinity.
fn no_number(draw: &mut Draw) -> u32 {
    let any = draw.next() as u32 & 0x7F_FFFF;
    draw.of(&[0, SIGN]) | 0xFF << 23 | draw.of(&[0, 0, 1, 0x40_0000, 0x7F_FFFF, any])
}

fn outside_frequency(draw: &mut Draw) -> u32 {
    let ends = [farther(frequency_tie(FREQUENCY.0 - 1), -1), farther(frequency_tie(FREQUENCY.1), 1)];
    let others = [0, SIGN, 1, (-60f32).to_bits(), 60_000f32.to_bits(), f32::MAX.to_bits()];
    draw.of(&[&ends[..], &ends, &others].concat())
}

fn outside_power(draw: &mut Draw) -> u32 {
    let size = draw.of(&[200_000.5, 200_000.5, 200_001.0, 3e9, 4.294_967e9, 2e19, f32::MAX]);
    draw.of(&[0, SIGN]) | size.to_bits()
}

// ---- what desk is asked

fn ask_pair(draw: &mut Draw, text: &mut String, frequency: u32, power: u32) {
    ask(draw, text, "pair", &[frequency.into(), power.into()]);
}

/// A pair's bits: half the times both are fit, else both are about the ends, one is any, or both are.
fn some_bits(draw: &mut Draw) -> [u32; 2] {
    let fit = [fit_frequency(draw), fit_power(draw)];
    let any = [draw.next() as u32, draw.next() as u32];
    let about = [float_between(draw, 54.9, 65.1), draw.of(&[0, SIGN]) | float_between(draw, 199_000.0, 201_000.0)];
    draw.of(&[fit, fit, fit, fit, about, [any[0], fit[1]], [fit[0], any[1]], any])
}

pub fn pairs(draw: &mut Draw) -> String {
    let mut text = String::new();
    for _ in 0..50_000 {
        let [frequency, power] = some_bits(draw);
        ask_pair(draw, &mut text, frequency, power);
    }
    text
}

/// A run's share of what all runs of a part have together: there are as many shares as the full run has runs.
fn share<T>(draw: &Draw, all: impl Iterator<Item = T>) -> impl Iterator<Item = T> {
    const SHARES: usize = 40;
    all.skip(draw.run % SHARES).step_by(SHARES)
}

/// Every float that is a frequency within the limits, and those a little past them.
pub fn frequencies(draw: &mut Draw) -> String {
    let mut text = String::new();
    for bits in share(draw, frequency_tie(FREQUENCY.0 - 2)..=frequency_tie(FREQUENCY.1 + 1)) {
        let power = fit_power(draw);
        ask_pair(draw, &mut text, bits, power);
    }
    text
}

/// Ties n + 1/2 of both floats, and the floats on both sides: every tie of a frequency, a share of the powers'.
pub fn ties(draw: &mut Draw) -> String {
    let mut text = String::new();
    let frequencies = (FREQUENCY.0..FREQUENCY.1).cycle();
    for (power, frequency) in share(draw, POWER.0 - 1..=POWER.1).zip(frequencies) {
        for side in [-1, 0, 1] {
            ask_pair(draw, &mut text, farther(frequency_tie(frequency), side), farther(power_tie(power), side));
        }
    }
    text
}

/// Every exponent with both signs: zeros, subnormals, infinities and NaN among them.
pub fn exponents(draw: &mut Draw) -> String {
    let mut text = String::new();
    for before in 0..1 << 9 {
        let any = draw.next() as u32 & 0x7F_FFFF;
        for rest in [0, 1, 2, 0x3F_FFFF, 0x40_0000, 0x40_0001, 0x7F_FFFE, 0x7F_FFFF, any] {
            let bits = before << 23 | rest;
            let (frequency, power) = (fit_frequency(draw), fit_power(draw));
            ask_pair(draw, &mut text, bits, power);
            ask_pair(draw, &mut text, frequency, bits);
            ask_pair(draw, &mut text, bits, bits);
        }
    }
    text
}

/// Every float about an end of the limits, with the tie past it; then numbers that are no float's bits.
pub fn limits(draw: &mut Draw) -> String {
    let mut text = String::new();
    for floats in -300..=300 {
        for end in [55f32, 65.0] {
            let power = fit_power(draw);
            ask_pair(draw, &mut text, farther(end.to_bits(), floats), power);
        }
        for end in [-200_000f32, 200_000.0] {
            let frequency = fit_frequency(draw);
            ask_pair(draw, &mut text, frequency, farther(end.to_bits(), floats));
        }
    }
    ask_no_bits(draw, &mut text);
    text
}

/// The edges of 32 bits, and fit bits that a narrower type would find in the number.
fn ask_no_bits(draw: &mut Draw, text: &mut String) {
    let past = [1 << 32, -(1 << 32), 1 << 33, 1 << 62, i64::MIN];
    for at in [0, 1] {
        let fit = [fit_frequency(draw), fit_power(draw)].map(i64::from);
        let numbers = past.iter().map(|step| fit[at] + step).chain(edges(BITS)).chain([-fit[at], !fit[at]]);
        for number in numbers {
            let mut both = fit;
            both[at] = number;
            ask(draw, text, "pair", &both);
            both[1 - at] = draw.of(&edges(BITS));
            ask(draw, text, "pair", &both);
        }
    }
}

pub fn frames(draw: &mut Draw) -> String {
    let mut text = String::new();
    let limits = [PLACE, BITS, BITS];
    ask_edges(draw, &mut text, "pair_frame", &limits);
    ask_any(draw, &mut text, "pair_frame", &limits, 1000);
    for _ in 0..1000 {
        let place = draw.below(SECONDS + 1);
        let Sent { second, frequency, power, .. } = fit_sent(draw, place);
        ask(draw, &mut text, "pair_frame", &[second.into(), frequency.into(), power.into()]);
    }
    text
}

/// An hour of frames: what desk prints for this goes into `import`.
pub fn framed_hour(draw: &mut Draw) -> String {
    let mut text = String::new();
    for place in 0..=SECONDS {
        let Sent { second, frequency, power, .. } = fit_sent(draw, place);
        ask(draw, &mut text, "pair_frame", &[second.into(), frequency.into(), power.into()]);
    }
    text
}

// ---- a logger's lines

/// A frame without a fault in the line at this place.
fn fit_sent(draw: &mut Draw, place: usize) -> Sent {
    Sent { kind: KIND, second: place as u16, frequency: fit_frequency(draw), power: fit_power(draw) }
}

fn line(sent: &Sent) -> Text {
    digits(sent).into_bytes()
}

/// So many lines, each without a fault in its place.
fn fit_lines(draw: &mut Draw, count: usize) -> Vec<Text> {
    (0..count).map(|place| line(&fit_sent(draw, place))).collect()
}

fn joined(lines: &[Text]) -> Text {
    let mut text = Text::new();
    lines.iter().for_each(|line| put(&mut text, line));
    text
}

/// What can be against a line, in the order in which it is told: 1, 11, 12, 13, 17, 18, 4.
#[derive(Clone, Copy, PartialEq)]
enum Flaw {
    Length,
    Digit,
    Sum,
    Kind,
    FrequencyNoNumber,
    PowerNoNumber,
    Place,
    FrequencyOutside,
    PowerOutside,
}

const FLAWS: [Flaw; 9] = [
    Flaw::Length,
    Flaw::Digit,
    Flaw::Sum,
    Flaw::Kind,
    Flaw::FrequencyNoNumber,
    Flaw::PowerNoNumber,
    Flaw::Place,
    Flaw::FrequencyOutside,
    Flaw::PowerOutside,
];

/// A frame with what a frame can have against it of these. What is told first is done last: it may be the same float's.
fn flawed_sent(draw: &mut Draw, place: usize, flaws: &[Flaw]) -> Sent {
    let mut sent = fit_sent(draw, place);
    for flaw in flaws.iter().rev() {
        match flaw {
            Flaw::Kind => sent.kind = draw.of(&[0, 1, 2, 3, 4, 5, 6, 0x0F, 0x11, 0x90, 0xFF]),
            Flaw::FrequencyNoNumber => sent.frequency = no_number(draw),
            Flaw::PowerNoNumber => sent.power = no_number(draw),
            Flaw::Place => sent.second = sent.second.wrapping_add(draw.of(&[1, u16::MAX, 256, 1 << 15, 3600, 3601])),
            Flaw::FrequencyOutside => sent.frequency = outside_frequency(draw),
            Flaw::PowerOutside => sent.power = outside_power(draw),
            Flaw::Length | Flaw::Digit | Flaw::Sum => {}
        }
    }
    sent
}

/// A line with all of these against it.
fn flawed(draw: &mut Draw, place: usize, flaws: &[Flaw]) -> Text {
    let mut line = line(&flawed_sent(draw, place, flaws));
    if flaws.contains(&Flaw::Sum) {
        let at = draw.of(&[22, 23]);
        line[at] = if line[at] == b'0' { b'F' } else { b'0' };
    }
    if flaws.contains(&Flaw::Digit) {
        line[draw.below(24)] = draw.of(b"/:@G`agf \r\0\t\xff-xX");
    }
    if flaws.contains(&Flaw::Length) {
        match draw.below(6) {
            0 => line.clear(),
            1 => drop(line.pop()),
            2 => line.truncate(draw.below(24)),
            3 => line.extend_from_within(..),
            4 => line.resize(draw.between(25, 100_000) as usize, b'0'),
            _ => line.push(draw.of(b"0\r \0")),
        }
    }
    line
}

/// A line's place: often the first or the last of the hour.
fn some_place(draw: &mut Draw) -> usize {
    let any = draw.below(SECONDS + 1);
    draw.of(&[0, 1, SECONDS - 1, SECONDS, any, any, any])
}

/// The line at this place with a flaw, or with two.
fn spoil(draw: &mut Draw, lines: &mut [Text], at: usize) {
    let flaws = [draw.of(&FLAWS), draw.of(&FLAWS)];
    let count = draw.between(1, 2) as usize;
    lines[at] = flawed(draw, at, &flaws[..count]);
}

// ---- what import is fed

/// An hour that is taken.
pub fn hour(draw: &mut Draw) -> Text {
    joined(&fit_lines(draw, SECONDS + 1))
}

/// How many runs have every flaw in the first line, in the last and in another.
pub const EVERY_FLAW: usize = 3 * FLAWS.len();

pub fn flaws(draw: &mut Draw) -> Text {
    let mut lines = fit_lines(draw, SECONDS + 1);
    let at = [0, SECONDS, 1 + draw.below(SECONDS - 1)][draw.run % 3];
    lines[at] = flawed(draw, at, &FLAWS[draw.run / 3..][..1]);
    joined(&lines)
}

/// Two flaws that are told one after the other, in one line; in later runs every set of flaws.
pub fn orders(draw: &mut Draw) -> Text {
    let neighbours = FLAWS.len() - 1;
    let set = match draw.run.checked_sub(neighbours) {
        None => 3 << draw.run,
        Some(later) => 1 + later % ((1 << FLAWS.len()) - 1),
    };
    let chosen: Vec<_> = (0..FLAWS.len()).filter(|at| set >> at & 1 == 1).map(|at| FLAWS[at]).collect();
    let mut lines = fit_lines(draw, SECONDS + 1);
    let at = some_place(draw);
    lines[at] = flawed(draw, at, &chosen);
    joined(&lines)
}

/// Several lines at fault, from a place on: the first one decides.
pub fn many_flaws(draw: &mut Draw) -> Text {
    let mut lines = fit_lines(draw, SECONDS + 1);
    let first = some_place(draw);
    spoil(draw, &mut lines, first);
    for _ in 0..draw.between(1, 6) {
        let at = first + draw.below(lines.len() - first);
        if draw.one_in(3) {
            damage(draw, &mut lines[at]);
        } else {
            spoil(draw, &mut lines, at);
        }
    }
    joined(&lines)
}

/// Numbers of lines that no hour has; some are 3,601 in a narrower type, and one is more than `ledger` reads.
pub const COUNTS: [usize; 12] = [0, 1, 2, 3599, 3600, 3602, 3603, 3601 + 256, 7202, 3601 + 65_536, 100_000, 1_003_601];

/// An hour with a wrong number of lines, half the times with a line at fault beside that.
pub fn counts(draw: &mut Draw) -> Text {
    let count = COUNTS[draw.run % COUNTS.len()];
    let mut lines = fit_lines(draw, count.min(8000));
    if !lines.is_empty() && draw.one_in(2) {
        let at = some_place(draw) % lines.len();
        spoil(draw, &mut lines, at);
    }
    let mut text = joined(&lines);
    text.extend(vec![b'\n'; count - lines.len()]);
    text
}

/// How many sorts of line ends there are.
pub const ENDS: usize = 14;

/// An hour whose lines end otherwise, or are otherwise than a logger writes them.
pub fn line_ends(draw: &mut Draw) -> Text {
    let mut lines = fit_lines(draw, SECONDS + 1);
    let at = some_place(draw);
    match draw.run % ENDS {
        0 => lines[at].push(b'\r'),
        1 => lines.iter_mut().for_each(|line| line.push(b'\r')),
        2 => lines[at].resize(100_000, b'F'),
        3 => lines[0].resize(draw.between(1_000_000, 5_000_000) as usize, b'\r'),
        4 => lines[at].make_ascii_lowercase(),
        5 => lines.iter_mut().for_each(|line| line.make_ascii_lowercase()),
        6 => lines[at].clear(),
        7 => lines.iter_mut().for_each(Text::clear),
        8 => lines = vec![lines.join(&b'\r')],
        9 => lines.push(Text::new()),
        10 => lines.insert(at, Text::new()),
        _ => return ended_otherwise(draw, joined(&lines)),
    }
    joined(&lines)
}

/// The last line without its end, with another byte for its end, and with a byte after its end.
fn ended_otherwise(draw: &mut Draw, mut text: Text) -> Text {
    let more = draw.of(b"\r0 \0");
    match draw.run % ENDS {
        11 => drop(text.pop()),
        12 => *text.last_mut().expect("an hour has a line end") = more,
        _ => text.push(more),
    }
    text
}

/// Floats that are rounded to these numbers: up to 60 floats, or 31/64 kilowatts, beside them.
fn logged(draw: &mut Draw, place: usize, millihertz: i64, kilowatts: i64) -> Sent {
    let frequency = farther((millihertz as f32 / 1000.0).to_bits(), draw.between(-60, 60));
    let power = (kilowatts as f32 + draw.between(-31, 31) as f32 / 64.0).to_bits();
    Sent { kind: KIND, second: place as u16, frequency, power }
}

/// What is asked of desk before an hour's readings, and the hour as the logger sends it, now and then with a flaw.
pub fn piped_hour(draw: &mut Draw) -> (String, Text) {
    let (question, seconds) = unread_hour(draw);
    let Limits(low, high) = FREQUENCY;
    let mut lines = Vec::new();
    for place in 0..=SECONDS {
        let power = if place > 0 { seconds[place - 1].0 } else { draw.fit(POWER) };
        let frequency = seconds.get(place).map_or_else(|| draw.between(low, high), |second| second.1);
        lines.push(line(&logged(draw, place, frequency, power)));
    }
    if draw.one_in(8) {
        let at = some_place(draw);
        spoil(draw, &mut lines, at);
    }
    (question, joined(&lines))
}

// ---- what ledger is fed

/// A logger's frames before a month is open, in it and after its close, between posts; some are damaged.
pub fn in_the_ledger(draw: &mut Draw) -> Text {
    let mut text = Text::new();
    for stage in 0..3 {
        for place in 0..400 {
            let mut line = line(&fit_sent(draw, place));
            if draw.one_in(8) {
                damage(draw, &mut line);
            }
            put(&mut text, &line);
            if draw.one_in(8) {
                put_frame(&mut text, 1, draw.between(1, 28) as u8, draw.between(0, 23) as u8, draw.between(-9, 9));
            }
        }
        match stage {
            0 => open(&mut text, 28),
            _ => put_frame(&mut text, 5, 0, 0, 0),
        }
    }
    text
}
