//! What `desk` is asked: one function a part, each writing the text of one run.

use crate::desk::{state_numbers, Product};
use crate::draw::{edges, Draw};
use crate::logger::{BITS, PLACE};
use crate::month::AMOUNT;
use crate::rules::*;

const BYTE: Limits = Limits(0, 255);
const DAY: Limits = Limits(1, 31);
const HOUR: Limits = Limits(0, 23);
const KIND: Limits = Limits(0, 6);
const STATE_KIND: Limits = Limits(0, 3);
const SECONDS: usize = 3600;
const PRODUCTS: [Product; 3] = [Product::Dreg, Product::Edreg, Product::Sreg];

// ---- writing a question

const GAPS: [&str; 12] = [",", "\t", "\n", "\r\n", ", ", "  ,\t ", "\n\n", " # 7 curve\n", "#\n", "\n# x, y #-1\n", " \r ", "\n,\n"];

/// What stands between two tokens: nearly always a space.
fn gap(draw: &mut Draw) -> &'static str {
    if draw.one_in(48) {
        draw.of(&GAPS)
    } else {
        " "
    }
}

/// A number's digits, now and then with zeros before them.
fn spelled(draw: &mut Draw, number: i64) -> String {
    let sign = if number < 0 || (number == 0 && draw.one_in(8)) { "-" } else { "" };
    let zeros = if draw.one_in(64) { draw.between(1, 30) as usize } else { 0 };
    format!("{sign}{}{}", "0".repeat(zeros), number.unsigned_abs())
}

pub fn ask(draw: &mut Draw, text: &mut String, word: &str, numbers: &[i64]) {
    text.push_str(word);
    for number in numbers {
        text.push_str(gap(draw));
        text.push_str(&spelled(draw, *number));
    }
    text.push_str(if draw.one_in(8) { gap(draw) } else { "\n" });
}

/// One question for each edge of each number, the others fit.
pub fn ask_edges(draw: &mut Draw, text: &mut String, word: &str, limits: &[Limits]) {
    for (at, limit) in limits.iter().enumerate() {
        for edge in edges(*limit) {
            let mut numbers: Vec<_> = limits.iter().map(|limit| draw.fit(*limit)).collect();
            numbers[at] = edge;
            ask(draw, text, word, &numbers);
        }
    }
}

/// Questions of any numbers, several of them often at fault at once.
pub fn ask_any(draw: &mut Draw, text: &mut String, word: &str, limits: &[Limits], count: usize) {
    for _ in 0..count {
        let numbers: Vec<_> = limits.iter().map(|limit| draw.any(*limit)).collect();
        ask(draw, text, word, &numbers);
    }
}

// ---- units, curve, score, ramp

/// Every whole megawatt of the range and past it.
pub fn kilowatts(draw: &mut Draw) -> String {
    let mut text = String::new();
    for megawatts in -105..=105 {
        ask(draw, &mut text, "kilowatts", &[megawatts]);
    }
    ask_edges(draw, &mut text, "kilowatts", &[MEGAWATTS]);
    ask_any(draw, &mut text, "kilowatts", &[MEGAWATTS], 300);
    text
}

/// Every whole millihertz of the range and past it; then the whole curve about moved references.
pub fn curve(draw: &mut Draw) -> String {
    let mut text = String::new();
    for frequency in 54_990..=65_010 {
        ask(draw, &mut text, "curve", &[frequency, NOMINAL]);
    }
    let drawn = draw.fit(REFERENCE);
    for reference in [59_500, 59_501, 59_700, 60_300, 60_499, 60_500, drawn] {
        for frequency in reference - 255..=reference + 255 {
            ask(draw, &mut text, "curve", &[frequency, reference]);
        }
    }
    ask_edges(draw, &mut text, "curve", &[FREQUENCY, REFERENCE]);
    ask_any(draw, &mut text, "curve", &[FREQUENCY, REFERENCE], 2000);
    text
}

/// The reference: as often as not where it stands in document 01.
fn reference(draw: &mut Draw) -> i64 {
    if draw.one_in(2) {
        NOMINAL
    } else {
        draw.fit(REFERENCE)
    }
}

/// A frequency, mostly where the curve bends.
fn frequency(draw: &mut Draw, reference: i64) -> i64 {
    if draw.one_in(10) {
        draw.fit(FREQUENCY)
    } else {
        draw.between(reference - 260, reference + 260)
    }
}

/// A power whose percent output is this one, or lies at a half beside it.
fn power_at(draw: &mut Draw, percent: i64, transfer: i64, capacity: i64) -> i64 {
    let halves = 2 * percent + draw.of(&[0, 0, 0, -1, 1]);
    let exact = halves * capacity;
    let power = exact.div_euclid(200) + i64::from(exact.rem_euclid(200) != 0 && draw.one_in(2));
    (transfer + power).clamp(POWER.0, POWER.1)
}

/// A percent output at, in or near the curve's bounds, which a deliberate fault may have in each other's place.
fn percent_near(draw: &mut Draw, frequency: i64, reference: i64) -> i64 {
    let (upper, lower) = bounds(frequency, reference);
    match draw.below(6) {
        0 => upper + draw.between(-1, 2),
        1 => lower - draw.between(-1, 2),
        2 => upper + draw.between(95, 105),
        3 => lower - draw.between(95, 105),
        _ => draw.between(lower.min(upper) - 10, lower.max(upper) + 10),
    }
}

pub fn score(draw: &mut Draw) -> String {
    let mut text = String::new();
    let limits = [POWER, TARGET, CAPACITY, FREQUENCY, REFERENCE];
    ask_edges(draw, &mut text, "score", &limits);
    ask_any(draw, &mut text, "score", &limits, 1000);
    for _ in 0..3000 {
        let capacity = if draw.one_in(2) { 200 * draw.between(1, 500) } else { draw.fit(CAPACITY) };
        let transfer = if draw.one_in(2) { 0 } else { draw.fit(TARGET) };
        let reference = reference(draw);
        let frequency = frequency(draw, reference);
        let percent = percent_near(draw, frequency, reference);
        let power = power_at(draw, percent, transfer, capacity);
        ask(draw, &mut text, "score", &[power, transfer, capacity, frequency, reference]);
    }
    text
}

pub fn ramp(draw: &mut Draw) -> String {
    let mut text = String::new();
    ask_edges(draw, &mut text, "ramp", &[TARGET, TARGET]);
    ask_any(draw, &mut text, "ramp", &[TARGET, TARGET], 60);
    for _ in 0..20 {
        let last = draw.fit(TARGET);
        let step = draw.between(-301, 301);
        ask(draw, &mut text, "ramp", &[last, (last + step).clamp(TARGET.0, TARGET.1)]);
    }
    text
}

// ---- rates and bands

/// How long a dip lasts: as a rule too short to fill a window of four.
fn dip_length(draw: &mut Draw) -> usize {
    if draw.one_in(40) {
        draw.between(4, 7) as usize
    } else {
        draw.between(1, 3) as usize
    }
}

/// An hour of scores that stays above a floor but for short dips; few dips are as long as a window.
fn scores(draw: &mut Draw) -> Vec<i64> {
    let floor = draw.fit(SCORE);
    let mut list = Vec::new();
    if draw.one_in(2) {
        list.push(floor);
    }
    while list.len() < SECONDS {
        let dip = dip_length(draw);
        list.extend((0..dip).map(|_| draw.between(0, floor)));
        let calm = draw.between(1, 60);
        list.extend((0..calm).map(|_| draw.between(floor, SCORE.1)));
    }
    if draw.one_in(2) {
        list.reverse();
    }
    list.truncate(SECONDS);
    list
}

/// E and its scores.
fn earlier_scores(draw: &mut Draw, count: i64) -> Vec<i64> {
    let mut numbers = vec![count];
    numbers.extend((0..count).map(|_| draw.fit(SCORE)));
    numbers
}

/// Three of the hour before, or none.
fn fit_earlier(draw: &mut Draw) -> Vec<i64> {
    let count = draw.of(&[0, 3, 3]);
    earlier_scores(draw, count)
}

/// As many as no hour takes, now and then with what is no score; or an E past what the form counts, and no score after it.
fn wrong_earlier(draw: &mut Draw) -> Vec<i64> {
    let count = draw.of(&[1, 2, 2, 4, 4, 99, 100, 101, -1, -3, 256, 259, (1 << 32) + 3, i64::MIN, i64::MAX]);
    if !(0..=100).contains(&count) {
        return vec![count];
    }
    let mut earlier = earlier_scores(draw, count);
    if draw.one_in(2) {
        set_earlier(draw, &mut earlier, score_edge);
    }
    earlier
}

/// One of the earlier scores drawn in another way: where there is none, one of three. After an E past what is counted none is set.
fn set_earlier(draw: &mut Draw, earlier: &mut Vec<i64>, drawn: fn(&mut Draw) -> i64) {
    if *earlier == [0] {
        *earlier = earlier_scores(draw, 3);
    }
    if earlier.len() > 1 {
        let at = 1 + draw.below(earlier.len() - 1);
        earlier[at] = drawn(draw);
    }
}

/// An edge of a score, or of a byte.
fn score_edge(draw: &mut Draw) -> i64 {
    let limits = draw.of(&[SCORE, BYTE]);
    draw.of(&edges(limits))
}

/// No score.
fn past_score(draw: &mut Draw) -> i64 {
    draw.of(&[101, 101, 102, 255, 256, 356, -1, i64::MIN, i64::MAX])
}

fn ask_rate(draw: &mut Draw, text: &mut String, earlier: &[i64], list: &[i64]) {
    ask(draw, text, "rate", &[earlier, list].concat());
}

/// An hour for every set of a wrong E, an earlier score and a score of its own past their limit.
fn ask_rate_orders(draw: &mut Draw, text: &mut String) {
    for set in 0..8 {
        let mut earlier = if set & 1 == 1 { wrong_earlier(draw) } else { fit_earlier(draw) };
        let mut list = scores(draw);
        if set & 2 == 2 {
            set_earlier(draw, &mut earlier, past_score);
        }
        if set & 4 == 4 {
            list[draw.below(SECONDS)] = past_score(draw);
        }
        ask_rate(draw, text, &earlier, &list);
    }
}

pub fn rate(draw: &mut Draw) -> String {
    let mut text = String::new();
    for _ in 0..30 {
        let mut list = scores(draw);
        let mut earlier = fit_earlier(draw);
        match draw.below(8) {
            0 => list[draw.of(&[0, 1, 1800, SECONDS - 1])] = score_edge(draw),
            1 => set_earlier(draw, &mut earlier, score_edge),
            2 => earlier = wrong_earlier(draw),
            _ => {}
        }
        ask_rate(draw, &mut text, &earlier, &list);
    }
    ask_rate_orders(draw, &mut text);
    text
}

type Pair = (i64, i64);

const LIST_S: [Pair; 7] = [(95, 10), (94, 8), (93, 6), (92, 4), (91, 2), (70, 0), (0, -10)];

fn fit_bands(draw: &mut Draw) -> Vec<Pair> {
    if draw.one_in(3) {
        return LIST_S.to_vec();
    }
    let mut thresholds = vec![0];
    for _ in 0..draw.below(16) {
        thresholds.push(draw.fit(THRESHOLD));
    }
    thresholds.sort_by(|a, b| b.cmp(a));
    thresholds.dedup();
    thresholds.into_iter().map(|threshold| (threshold, draw.fit(FACTOR))).collect()
}

/// A list with one or two things done to it, most of which put it against the rule.
fn spoiled_bands(draw: &mut Draw) -> Vec<Pair> {
    let mut list = fit_bands(draw);
    for _ in 0..=draw.below(2) {
        let at = draw.below(list.len());
        match draw.below(7) {
            0 => list[at].0 = draw.of(&edges(THRESHOLD)),
            1 => list[at].1 = draw.of(&edges(FACTOR)),
            2 => list.insert(at, list[at]),
            3 => list.swap(at, 0),
            4 => list.push((0, draw.fit(FACTOR))),
            5 => list = (0..draw.between(15, 18)).rev().map(|threshold| (threshold, 0)).collect(),
            _ => drop(list.pop()),
        }
        if list.is_empty() {
            break;
        }
    }
    list
}

fn any_bands(draw: &mut Draw) -> Vec<Pair> {
    match draw.below(20) {
        0..=9 => fit_bands(draw),
        10 => vec![(0, draw.fit(FACTOR)); draw.of(&[0, 17, 99, 100, 300])],
        _ => spoiled_bands(draw),
    }
}

fn flat(pairs: &[Pair]) -> Vec<i64> {
    pairs.iter().flat_map(|(threshold, factor)| [*threshold, *factor]).collect()
}

/// A threshold, E with its scores, and the hour's.
fn ask_reached(draw: &mut Draw, text: &mut String, threshold: i64, earlier: &[i64], list: &[i64]) {
    ask(draw, text, "reached", &[&[threshold][..], earlier, list].concat());
}

/// A threshold about an hour's rate, or any, or past the limit.
fn threshold_near(draw: &mut Draw, earlier: &[i64], list: &[i64]) -> i64 {
    let rate = rate_of(&earlier[1..], list);
    match draw.below(10) {
        0 => draw.fit(THRESHOLD),
        1 => draw.of(&[0, 1, 99, 100]),
        2 => score_edge(draw),
        _ => rate + draw.between(-1, 1),
    }
}

/// An hour for every set of a wrong E, an earlier score, a score of its own and a threshold past their limits.
fn ask_reached_orders(draw: &mut Draw, text: &mut String) {
    for set in 0..16 {
        let mut earlier = if set & 1 == 1 { wrong_earlier(draw) } else { fit_earlier(draw) };
        let mut list = scores(draw);
        if set & 2 == 2 {
            set_earlier(draw, &mut earlier, past_score);
        }
        if set & 4 == 4 {
            list[draw.below(SECONDS)] = past_score(draw);
        }
        let threshold = if set & 8 == 8 { past_score(draw) } else { draw.fit(THRESHOLD) };
        ask_reached(draw, text, threshold, &earlier, &list);
    }
}

/// Calm hours with one dip, of one to five seconds, at their beginning, in their midst and at their end.
fn ask_dips(draw: &mut Draw, text: &mut String) {
    for first in [0, 1, 2, 3, 4, 1800, SECONDS - 5, SECONDS - 4, SECONDS - 1] {
        for dip in 1..=5 {
            let threshold = draw.between(1, SCORE.1);
            let calm = |second: usize| !(first..first + dip).contains(&second);
            let list: Vec<_> = (0..SECONDS).map(|at| draw.fit(if calm(at) { Limits(threshold, SCORE.1) } else { Limits(0, threshold - 1) })).collect();
            let mut earlier = fit_earlier(draw);
            if draw.one_in(2) {
                earlier[1..].iter_mut().for_each(|score| *score = (*score).min(threshold - 1));
            }
            ask_reached(draw, text, threshold, &earlier, &list);
        }
    }
}

pub fn reached(draw: &mut Draw) -> String {
    let mut text = String::new();
    for _ in 0..30 {
        let (list, earlier) = (scores(draw), fit_earlier(draw));
        let threshold = threshold_near(draw, &earlier, &list);
        ask_reached(draw, &mut text, threshold, &earlier, &list);
    }
    ask_dips(draw, &mut text);
    ask_reached_orders(draw, &mut text);
    text
}

/// A rate at, above or below a threshold of the list.
fn rate_near(draw: &mut Draw, list: &[Pair]) -> i64 {
    if list.is_empty() || draw.one_in(4) {
        return draw.any(SCORE);
    }
    draw.of(list).0.saturating_add(draw.between(-1, 1))
}

pub fn bands(draw: &mut Draw) -> String {
    let mut text = String::new();
    for _ in 0..1500 {
        let list = any_bands(draw);
        ask(draw, &mut text, "bands", &flat(&list));
        let list = any_bands(draw);
        let mut numbers = vec![rate_near(draw, &list)];
        numbers.extend(flat(&list));
        ask(draw, &mut text, "factor", &numbers);
    }
    text
}

// ---- fees

/// A price and a capacity whose fee ends in half a dollar.
fn tied_fee(draw: &mut Draw) -> [i64; 2] {
    let (odd, other) = (2 * draw.between(0, 40) + 1, 2 * draw.between(0, 40) + 1);
    [50 * odd, 1000 * other]
}

pub fn fees(draw: &mut Draw) -> String {
    let mut text = String::new();
    ask_edges(draw, &mut text, "fee", &[PRICE, CAPACITY]);
    ask_any(draw, &mut text, "fee", &[PRICE, CAPACITY], 1500);
    ask_edges(draw, &mut text, "quality", &[FEE, FEE, FACTOR]);
    ask_any(draw, &mut text, "quality", &[FEE, FEE, FACTOR], 1500);
    for _ in 0..500 {
        let numbers = tied_fee(draw);
        ask(draw, &mut text, "fee", &numbers);
    }
    text
}

/// Energies and a cost whose fees often end in half a dollar.
fn tied_loss(draw: &mut Draw) -> [i64; 4] {
    let charged = 2500 * draw.between(0, 400);
    let discharged = 500 * draw.between(0, 2000);
    let volts = draw.of(&[1, 110, 11_399, 11_400, 11_401, 22_800, 68_999, 69_000, 69_001, 161_000, 1_000_000]);
    [charged, discharged, volts, 25 * draw.between(0, 400)]
}

pub fn loss(draw: &mut Draw) -> String {
    let mut text = String::new();
    let limits = [ENERGY, ENERGY, VOLTAGE, COST];
    for word in ["loss", "loss_frames"] {
        ask_edges(draw, &mut text, word, &limits);
        ask_any(draw, &mut text, word, &limits, 1500);
    }
    for _ in 0..1500 {
        let mut numbers = tied_loss(draw);
        if draw.one_in(3) {
            numbers[1] = numbers[0] / 5 * 4 + draw.between(-1, 1);
        }
        let word = draw.of(&["loss", "loss_frames"]);
        ask(draw, &mut text, word, &numbers);
    }
    text
}

const ENERGY_HEAD: [Limits; 6] = [PRICE, PRICE, TARGET, TARGET, TARGET, TARGET];

/// Prices and targets, then the powers of four quarters.
fn energy_numbers(draw: &mut Draw) -> Vec<i64> {
    let mut numbers: Vec<_> = ENERGY_HEAD.iter().map(|limit| draw.fit(*limit)).collect();
    for _ in 0..4 {
        let steady = draw.fit(POWER);
        let varies = draw.one_in(2);
        numbers.extend((0..900).map(|_| if varies { draw.fit(POWER) } else { steady }));
    }
    numbers
}

/// Even dollars and steady powers in thousands: the sum is a whole number of half dollars.
fn tied_energy(draw: &mut Draw) -> Vec<i64> {
    let mut numbers: Vec<_> = ENERGY_HEAD.iter().map(|limit| draw.fit(*limit)).collect();
    for price in &mut numbers[..2] {
        *price = 200 * draw.between(0, 1000);
    }
    for _ in 0..4 {
        let steady = 1000 * draw.between(-200, 200);
        numbers.extend([steady; 900]);
    }
    numbers
}

/// Some numbers set to what may be past their limits.
fn spoil_energy(draw: &mut Draw, numbers: &mut [i64]) {
    for (at, limit) in ENERGY_HEAD.iter().enumerate() {
        if draw.one_in(4) {
            numbers[at] = draw.any(*limit);
        }
    }
    if draw.one_in(2) {
        let at = ENERGY_HEAD.len() + draw.of(&[0, 1, 899, 900, SECONDS - 1]);
        numbers[at] = draw.of(&edges(POWER));
    }
}

pub fn energy(draw: &mut Draw) -> String {
    let mut text = String::new();
    for _ in 0..40 {
        let mut numbers = if draw.one_in(2) { tied_energy(draw) } else { energy_numbers(draw) };
        if draw.one_in(3) {
            spoil_energy(draw, &mut numbers);
        }
        ask(draw, &mut text, "energy", &numbers);
    }
    text
}

// ---- hours

/// An hour's numbers as its question takes them: the head, N with its pairs, E with its scores, for sReg a state, the
/// readings.
struct Asked {
    head: Vec<i64>,
    limits: Vec<Limits>,
    bands: Vec<i64>,
    earlier: Vec<i64>,
    state: Vec<i64>,
    readings: Vec<i64>,
}

impl Asked {
    fn numbers(&self) -> Vec<i64> {
        [&self.head[..], &self.bands, &self.earlier, &self.state, &self.readings].concat()
    }
}

/// N and its pairs.
fn counted(list: &[Pair]) -> Vec<i64> {
    let mut numbers = vec![list.len() as i64];
    numbers.extend(flat(list));
    numbers
}

/// N past what the form counts: no pairs follow.
fn uncounted(draw: &mut Draw) -> Vec<i64> {
    vec![draw.of(&[-1, 101, 256, 257, 1 << 32, (1 << 32) + 1, i64::MIN, i64::MAX])]
}

/// The scheduled transfers of the head's targets; none for dReg.
fn planned(head: &[i64]) -> Vec<i64> {
    match head {
        [_, _, _, _, discharge, charge, before, targets @ ..] => transfers(&Shift {
            discharge: *discharge,
            charge: *charge,
            before: *before,
            targets: targets.try_into().expect("four targets"),
        }),
        _ => vec![0; SECONDS],
    }
}

/// How the frequency goes on, about the reference.
fn next_frequency(draw: &mut Draw, way: usize, last: i64, reference: i64) -> i64 {
    match way {
        0 => last,
        1 => (last + draw.between(-8, 8)).clamp(reference - 300, reference + 300),
        2 => draw.fit(FREQUENCY),
        _ => draw.between(reference - 260, reference + 260),
    }
}

/// A percent output within the bounds, or so much outside them.
fn percent(draw: &mut Draw, frequency: i64, reference: i64, outside: Option<Limits>) -> i64 {
    let (upper, lower) = bounds(frequency, reference);
    match (outside, draw.below(4)) {
        (None, 0) => upper,
        (None, 1) => lower,
        (None, _) => draw.between(lower.min(upper), lower.max(upper)),
        (Some(Limits(least, most)), 0 | 1) => upper + draw.between(least, most),
        (Some(Limits(least, most)), _) => lower - draw.between(least, most),
    }
}

/// Readings of an hour with this head that follow the curve but for dips of some depth; so many first seconds stumble deeper.
fn readings(draw: &mut Draw, head: &[i64], depth: i64, stumble: usize) -> Vec<i64> {
    let (capacity, reference, planned) = (head[0], head[1], planned(head));
    let way = draw.below(5);
    let (mut now, mut dip, mut calm) = (reference, 0, draw.below(40));
    let mut list = Vec::new();
    for (second, transfer) in planned.iter().enumerate() {
        if dip == 0 && calm == 0 {
            (dip, calm) = (dip_length(draw), draw.below(60));
        }
        now = next_frequency(draw, way, now, reference);
        let outside = if second < stumble { Some(Limits(60, 130)) } else { (dip > 0).then_some(Limits(0, depth)) };
        let output = percent(draw, now, reference, outside);
        list.extend([power_at(draw, output, *transfer, capacity), now]);
        (dip, calm) = if dip > 0 { (dip - 1, calm) } else { (0, calm - 1) };
    }
    list
}

// an sReg hour's events

/// Mostly one of those beside a mark, else anything within the limits.
fn beside(draw: &mut Draw, marks: [i64; 2], Limits(low, high): Limits) -> i64 {
    if draw.one_in(3) {
        draw.between(low, high)
    } else {
        draw.of(&marks)
    }
}

/// A frequency that starts an event.
fn low(draw: &mut Draw) -> i64 {
    beside(draw, [59_879, 59_880], Limits(FREQUENCY.0, 59_880))
}

/// One that neither starts nor ends one.
fn middle(draw: &mut Draw) -> i64 {
    beside(draw, [59_881, 59_979], Limits(59_881, 59_979))
}

/// One that ends one.
fn high(draw: &mut Draw) -> i64 {
    beside(draw, [59_980, 59_981], Limits(59_980, FREQUENCY.1))
}

/// An event of so many seconds up to its return, the return, and so many seconds after it in which none starts.
fn put_event(draw: &mut Draw, list: &mut Vec<i64>, length: usize, after: usize) {
    list.push(low(draw));
    for _ in 1..length {
        list.push(if draw.one_in(2) { low(draw) } else { middle(draw) });
    }
    list.push(high(draw));
    for _ in 0..after {
        list.push(if draw.one_in(2) { middle(draw) } else { high(draw) });
    }
}

/// How many seconds: mostly around the ten that score 100.
fn span(draw: &mut Draw) -> usize {
    let most = draw.of(&[12, 12, 12, 12, 12, 60, 900]);
    draw.between(1, most) as usize
}

/// So many frequencies: one event after the other, or what wanders about the two marks; now and then anything.
fn event_frequencies(draw: &mut Draw, count: usize) -> Vec<i64> {
    let way = draw.below(6);
    let (mut list, mut now) = (Vec::new(), 59_930);
    let begun = draw.below(40);
    while list.len() < begun + count {
        now = (now + draw.between(-15, 15)).clamp(59_860, 60_000);
        match way {
            0 => list.push(draw.of(&[59_879, 59_880, 59_881, 59_979, 59_980, 59_981])),
            1 => list.push(now),
            2 => list.push(draw.fit(FREQUENCY)),
            _ => {
                let (length, after) = (span(draw), span(draw) - 1);
                put_event(draw, &mut list, length, after);
            }
        }
    }
    list[begun..begun + count].to_vec()
}

/// Readings with these frequencies: what is judged is given in full but for dips; a start has about the capacity.
fn event_readings(draw: &mut Draw, capacity: i64, state: State, frequencies: &[i64]) -> Vec<i64> {
    let (mut powers, begun): (Vec<_>, Vec<_>) = lead_in(state).into_iter().unzip();
    let seconds = judged(&[&begun[..], frequencies].concat()).split_off(begun.len());
    let (depth, dips) = (draw.of(&[0, 3, 9, 30]), draw.of(&[2, 6, 40]));
    for second in seconds {
        let percent = if draw.one_in(dips) { draw.between(-10, 110) } else { draw.between(100 - depth, 102) };
        let output = power_at(draw, percent, 0, capacity);
        powers.push(match second {
            Judged::Since(start) => (powers[start] - output).clamp(POWER.0, POWER.1),
            Judged::Full if draw.one_in(4) => draw.fit(POWER),
            _ => output,
        });
    }
    paired(&powers.split_off(begun.len()), frequencies)
}

fn paired(powers: &[i64], frequencies: &[i64]) -> Vec<i64> {
    powers.iter().zip(frequencies).flat_map(|(power, frequency)| [*power, *frequency]).collect()
}

fn fit_state(draw: &mut Draw) -> State {
    let (start, scored, left) = (draw.fit(POWER), draw.fit(SCORED), draw.fit(LEFT));
    let (responding, holding) = (State::Responding { start, scored }, State::Holding { start });
    draw.of(&[State::Outside, State::Outside, responding, responding, holding, State::Recovering { left }])
}

/// Three numbers that are no state's.
fn unfit_state(draw: &mut Draw) -> Vec<i64> {
    let (power, scored, left) = (draw.fit(POWER), draw.fit(SCORED), draw.fit(LEFT));
    let (past_kind, past_power) = (past(draw, STATE_KIND), past(draw, POWER));
    let (past_scored, past_left) = (past(draw, SCORED), past(draw, LEFT));
    let unused = draw.of(&[-1, 1, 10, 200_000, 1 << 32, i64::MIN, i64::MAX]);
    let list = [
        [past_kind, 0, 0],
        [past_kind, power, scored],
        [0, unused, 0],
        [0, 0, unused],
        [1, past_power, scored],
        [1, power, past_scored],
        [2, past_power, 0],
        [2, power, unused],
        [3, unused, left],
        [3, 0, past_left],
    ];
    draw.of(&list).to_vec()
}

/// Any three numbers.
fn any_state(draw: &mut Draw) -> Vec<i64> {
    if draw.one_in(2) {
        return unfit_state(draw);
    }
    let kind = draw.of(&edges(STATE_KIND));
    let limits = draw.of(&[SCORED, LEFT]);
    vec![kind, draw.any(POWER), draw.any(limits)]
}

// any hour

fn fit_hour(draw: &mut Draw, product: Product) -> Asked {
    let mut limits = if product == Product::Sreg { vec![CAPACITY] } else { vec![CAPACITY, REFERENCE] };
    limits.extend([PRICE, PRICE]);
    if product == Product::Edreg {
        limits.extend([PRICE, PRICE, TARGET, TARGET, TARGET, TARGET, TARGET]);
    }
    let mut head: Vec<_> = limits.iter().map(|limit| draw.fit(*limit)).collect();
    if product != Product::Sreg {
        head[1] = reference(draw);
    }
    if draw.one_in(3) {
        [head[product.prices_at()], head[0]] = tied_fee(draw);
    }
    if head[0] < 100 && draw.one_in(2) {
        head[0] = draw.between(100, 5000);
    }
    let bands = counted(&fit_bands(draw));
    let earlier = fit_earlier(draw);
    if product == Product::Sreg {
        let (begun, frequencies) = (fit_state(draw), event_frequencies(draw, SECONDS));
        let readings = event_readings(draw, head[0], begun, &frequencies);
        return Asked { head, limits, bands, earlier, state: state_numbers(begun).to_vec(), readings };
    }
    let depth = draw.of(&[0, 4, 9, 30, 130]);
    let stumble = draw.of(&[0, 0, 1, 3]);
    let readings = readings(draw, &head, depth, stumble);
    Asked { head, limits, bands, earlier, state: Vec::new(), readings }
}

/// One to four numbers of the hour set to an edge.
fn spoil(draw: &mut Draw, hour: &mut Asked) {
    let sorts = if hour.state.is_empty() { 6 } else { 7 };
    for _ in 0..=draw.below(4) {
        match draw.below(sorts) {
            0 | 1 => {
                let at = draw.below(hour.head.len());
                hour.head[at] = draw.of(&edges(hour.limits[at]));
            }
            2 => hour.bands = if draw.one_in(4) { uncounted(draw) } else { counted_any(draw) },
            3 => hour.earlier = wrong_earlier(draw),
            4 => set_earlier(draw, &mut hour.earlier, score_edge),
            6 => hour.state = any_state(draw),
            _ => spoil_reading(draw, hour),
        }
    }
}

fn counted_any(draw: &mut Draw) -> Vec<i64> {
    let list = any_bands(draw);
    counted(&list[..list.len().min(100)])
}

fn spoil_reading(draw: &mut Draw, hour: &mut Asked) {
    let at = draw.of(&[0, 1, 2, 3, 3600, 3601, 7198, 7199]);
    hour.readings[at] = draw.of(&edges(if at % 2 == 0 { POWER } else { FREQUENCY }));
}

/// The words for an hour: its fields, its scores, its frame.
fn hour_words(product: Product) -> [&'static str; 3] {
    match product {
        Product::Dreg => ["dreg", "dreg_scores", "dreg_frame"],
        Product::Edreg => ["edreg", "edreg_scores", "edreg_frame"],
        Product::Sreg => ["sreg", "sreg_scores", "sreg_frame"],
    }
}

fn ask_frame(draw: &mut Draw, text: &mut String, product: Product, place: [i64; 2], numbers: &[i64]) {
    ask(draw, text, hour_words(product)[2], &[&place, numbers].concat());
}

/// Asks for one of the three.
fn ask_hour(draw: &mut Draw, text: &mut String, product: Product, numbers: &[i64]) {
    match draw.below(10) {
        0..=4 => ask(draw, text, hour_words(product)[0], numbers),
        5..=7 => ask(draw, text, hour_words(product)[1], numbers),
        _ => {
            let place = if draw.one_in(2) { [draw.any(DAY), draw.any(HOUR)] } else { [draw.any(BYTE), draw.any(BYTE)] };
            ask_frame(draw, text, product, place, numbers);
        }
    }
}

fn hours(draw: &mut Draw, product: Product) -> String {
    let mut text = String::new();
    for run in 0..20 {
        let mut hour = fit_hour(draw, product);
        if run % 3 == 0 {
            spoil(draw, &mut hour);
        }
        ask_hour(draw, &mut text, product, &hour.numbers());
    }
    text
}

pub fn dreg(draw: &mut Draw) -> String {
    hours(draw, Product::Dreg)
}

pub fn edreg(draw: &mut Draw) -> String {
    hours(draw, Product::Edreg)
}

pub fn sreg(draw: &mut Draw) -> String {
    hours(draw, Product::Sreg)
}

/// What is asked for a dReg or an E-dReg hour, all but its readings, and these.
pub fn unread_hour(draw: &mut Draw) -> (String, Vec<Second>) {
    let product = PRODUCTS[draw.run % 2];
    let mut hour = fit_hour(draw, product);
    let readings = std::mem::take(&mut hour.readings);
    let mut text = String::new();
    ask_hour(draw, &mut text, product, &hour.numbers());
    (text, seconds(&readings))
}

/// Asks for an sReg hour's fields and its scores.
fn ask_sreg(draw: &mut Draw, text: &mut String, hour: &Asked) {
    let [fields, scores, _] = hour_words(Product::Sreg);
    ask(draw, text, fields, &hour.numbers());
    ask(draw, text, scores, &hour.numbers());
}

/// Events of every length around the ten seconds, the next one after every number of seconds around the ten.
pub fn sreg_events(draw: &mut Draw) -> String {
    let mut text = String::new();
    for _ in 0..6 {
        let mut hour = fit_hour(draw, Product::Sreg);
        let mut frequencies = Vec::new();
        for length in 1..=12 {
            for after in 0..=12 {
                put_event(draw, &mut frequencies, length, after);
            }
        }
        frequencies.extend(event_frequencies(draw, SECONDS - frequencies.len()));
        let state = fit_state(draw);
        hour.state = state_numbers(state).to_vec();
        hour.readings = event_readings(draw, hour.head[0], state, &frequencies);
        ask_sreg(draw, &mut text, &hour);
    }
    text
}

/// The frequencies of two hours: an event starts so long before the first one's end, and returns so many seconds later.
fn cut_frequencies(draw: &mut Draw, before: usize, length: usize) -> Vec<i64> {
    let calm = 20;
    let mut list = event_frequencies(draw, SECONDS - before - calm);
    list.extend((0..calm).map(|_| high(draw)));
    let after = span(draw) - 1;
    put_event(draw, &mut list, length, after);
    let rest = (2 * SECONDS).saturating_sub(list.len());
    list.extend(event_frequencies(draw, rest));
    list.truncate(2 * SECONDS);
    list
}

/// Two hours, and the states that they begin in: the first hands its state and its last three scores on to the second.
struct HandedOn {
    hours: [Asked; 2],
    begun: [State; 2],
}

fn handed_on(draw: &mut Draw, frequencies: &[i64]) -> HandedOn {
    let mut hours = [0; 2].map(|_| fit_hour(draw, Product::Sreg));
    let (capacity, state) = (hours[0].head[0], fit_state(draw));
    let readings = event_readings(draw, capacity, state, frequencies);
    let (scores, ended) = scores_after(state, capacity, &seconds(&readings[..2 * SECONDS]));
    let begun = [state, ended];
    for (at, hour) in hours.iter_mut().enumerate() {
        hour.head[0] = capacity;
        hour.state = state_numbers(begun[at]).to_vec();
        hour.readings = readings[2 * SECONDS * at..2 * SECONDS * (at + 1)].to_vec();
    }
    hours[1].earlier = [&[3], &scores[SECONDS - 3..]].concat();
    HandedOn { hours, begun }
}

/// For every state that an hour can end in, and for some of a longer event or a longer time after one.
fn all_handed_on(draw: &mut Draw) -> Vec<HandedOn> {
    let mut cuts: Vec<_> = (1..=12).map(|before| (before, before + draw.below(12))).collect();
    for past in 0..=11 {
        let length = draw.between(1, 13) as usize;
        cuts.push((length + 1 + past, length));
    }
    let hours = |(before, length)| {
        let frequencies = cut_frequencies(draw, before, length);
        handed_on(draw, &frequencies)
    };
    cuts.into_iter().map(hours).collect()
}

fn seconds(readings: &[i64]) -> Vec<Second> {
    readings.chunks(2).map(|pair| (pair[0], pair[1])).collect()
}

pub fn sreg_handed_on(draw: &mut Draw) -> String {
    let mut text = String::new();
    for hour in all_handed_on(draw).iter().flat_map(|both| &both.hours) {
        ask_sreg(draw, &mut text, hour);
    }
    text
}

/// Whether any two of these hours score, or end, otherwise than the run of their 7,200 seconds.
pub fn cut_matters(draw: &mut Draw) -> bool {
    all_handed_on(draw).iter().any(|HandedOn { hours, begun }| {
        let capacity = hours[0].head[0];
        let [first, second] = [0, 1].map(|at| scores_after(begun[at], capacity, &seconds(&hours[at].readings)));
        let run = seconds(&[&hours[0].readings[..], &hours[1].readings].concat());
        scores_after(begun[0], capacity, &run) != ([first.0, second.0].concat(), second.1)
    })
}

/// Every kind with every number beside it at and past its limits, and kinds that are none.
pub fn sreg_states(draw: &mut Draw) -> String {
    let mut text = String::new();
    let mut hour = fit_hour(draw, Product::Sreg);
    let mut states = Vec::new();
    for kind in [0, 1, 2, 3, -1, 4, 255, 256, 1 << 32, (1 << 32) + 1, i64::MIN, i64::MAX] {
        let (power, count) = (draw.fit(POWER), draw.between(1, 9));
        states.extend([[kind, 0, 0], [kind, power, 0], [kind, 0, count], [kind, power, count]]);
    }
    for kind in [0, 1, 2, 3] {
        let count = draw.between(1, 9);
        states.extend(edges(POWER).iter().flat_map(|power| [[kind, *power, 0], [kind, *power, count]]));
        let power = draw.fit(POWER);
        let counts = (-2..=12).chain([255, 256, 257, 1 << 32, (1 << 32) + 1, i64::MIN, i64::MAX]);
        states.extend(counts.flat_map(|count| [[kind, 0, count], [kind, power, count]]));
    }
    for state in states {
        hour.state = state.to_vec();
        ask_hour(draw, &mut text, Product::Sreg, &hour.numbers());
    }
    text
}

/// Scores, and an hour, for each place of the one high earlier score, and for none, by how many first seconds stumble.
pub fn first_windows(draw: &mut Draw) -> String {
    let mut text = String::new();
    for stumble in 1..=4 {
        for high in 0..=3 {
            let low = draw.of(&[0, 5, 10]);
            let mut earlier = [3, draw.between(0, low), draw.between(0, low), draw.between(0, low)];
            if high > 0 {
                earlier[high] = draw.of(&[SCORE.1, 90, 50, 41]);
            }
            let second = |at: usize, draw: &mut Draw| if at < stumble { draw.between(0, low) } else { draw.between(90, SCORE.1) };
            let list: Vec<_> = (0..SECONDS).map(|at| second(at, draw)).collect();
            ask_rate(draw, &mut text, &earlier, &list);
            ask_reached(draw, &mut text, 40, &earlier, &list);
            ask_stumble(draw, &mut text, &earlier, stumble);
        }
    }
    text
}

/// An hour of each kind that is calm but for its first seconds.
fn ask_stumble(draw: &mut Draw, text: &mut String, earlier: &[i64], stumble: usize) {
    for product in PRODUCTS {
        let mut hour = fit_hour(draw, product);
        hour.head[0] = draw.between(1000, 50_000);
        hour.earlier = earlier.to_vec();
        hour.readings = if product == Product::Sreg {
            hour.state = state_numbers(State::Outside).to_vec();
            standby(draw, hour.head[0], stumble)
        } else {
            readings(draw, &hour.head, 4, stumble)
        };
        ask(draw, text, hour_words(product)[0], &hour.numbers());
    }
}

/// Readings of an sReg hour without an event; so many first seconds stumble.
fn standby(draw: &mut Draw, capacity: i64, stumble: usize) -> Vec<i64> {
    let mut list = Vec::new();
    for second in 0..SECONDS {
        let output = if second < stumble { draw.between(-5, 40) } else { draw.between(96, 104) };
        list.extend([power_at(draw, output, 0, capacity), draw.between(59_881, 60_080)]);
    }
    list
}

/// The edges of an hour's number that matter most: in text an hour is long.
fn ends(Limits(low, high): Limits) -> [i64; 6] {
    [low - 1, low, high, high + 1, i64::MIN, i64::MAX]
}

/// Places of an hour's numbers, with their limits: the head, the first and the last band, three earlier scores, a
/// responding state's numbers, some readings.
fn places(hour: &Asked) -> Vec<(usize, Limits)> {
    let bands_at = hour.head.len() + 1;
    let earlier_at = hour.head.len() + hour.bands.len();
    let state_at = earlier_at + hour.earlier.len();
    let readings_at = state_at + hour.state.len();
    let mut places: Vec<_> = hour.limits.iter().copied().enumerate().collect();
    places.extend([(bands_at, THRESHOLD), (bands_at + 1, FACTOR), (earlier_at - 2, THRESHOLD), (earlier_at - 1, FACTOR)]);
    places.extend([(earlier_at + 1, SCORE), (earlier_at + 2, BYTE), (earlier_at + 3, SCORE)]);
    if !hour.state.is_empty() {
        places.extend([(state_at, STATE_KIND), (state_at + 1, POWER), (state_at + 2, SCORED)]);
    }
    for second in [0, 1, 1799, SECONDS - 1] {
        places.extend([(readings_at + 2 * second, POWER), (readings_at + 2 * second + 1, FREQUENCY)]);
    }
    places
}

/// Asks for all three.
fn ask_all(draw: &mut Draw, text: &mut String, product: Product, numbers: &[i64]) {
    let [fields, scores, _] = hour_words(product);
    ask(draw, text, fields, numbers);
    ask(draw, text, scores, numbers);
    ask_frame(draw, text, product, [1, 0], numbers);
}

/// Every limit of an hour's numbers, one past it, and the 64-bit ends, one at a time; then every E that matters.
fn hour_limits(draw: &mut Draw, product: Product) -> String {
    let mut text = String::new();
    let mut fit = fit_hour(draw, product);
    fit.earlier = earlier_scores(draw, 3);
    if product == Product::Sreg {
        fit.state = vec![1, draw.fit(POWER), draw.fit(SCORED)];
    }
    for (at, limits) in places(&fit) {
        for end in ends(limits) {
            let mut numbers = fit.numbers();
            numbers[at] = end;
            ask_all(draw, &mut text, product, &numbers);
        }
    }
    for count in [0, 1, 2, 4, 100] {
        fit.earlier = earlier_scores(draw, count);
        ask_all(draw, &mut text, product, &fit.numbers());
    }
    for count in [-1, 101, 256, 259, i64::MIN, i64::MAX] {
        fit.earlier = vec![count];
        ask_all(draw, &mut text, product, &fit.numbers());
    }
    fit.earlier = vec![0];
    for place in [[-1, 0], [0, 0], [255, 255], [256, 0], [0, -1], [0, 256], [i64::MIN, 0], [0, i64::MAX]] {
        ask_frame(draw, &mut text, product, place, &fit.numbers());
    }
    text
}

pub fn dreg_limits(draw: &mut Draw) -> String {
    hour_limits(draw, Product::Dreg)
}

pub fn edreg_limits(draw: &mut Draw) -> String {
    hour_limits(draw, Product::Edreg)
}

pub fn sreg_limits(draw: &mut Draw) -> String {
    hour_limits(draw, Product::Sreg)
}

/// A number just past a limit, or at an end of 64 bits.
fn past(draw: &mut Draw, Limits(low, high): Limits) -> i64 {
    draw.of(&[low - 1, high + 1, i64::MIN, i64::MAX])
}

/// The hour with one more thing against the rules, which alone would be refused with this number.
fn refuse(draw: &mut Draw, hour: &mut Asked, product: Product, refusal: u8) {
    let prices: &[usize] = match product {
        Product::Dreg => &[2, 3],
        Product::Edreg => &[2, 3, 4, 5],
        Product::Sreg => &[1, 2],
    };
    match refusal {
        1 => hour.earlier = wrong_earlier(draw),
        2 => hour.head[0] = past(draw, CAPACITY),
        3 => hour.head[draw.of(prices)] = past(draw, PRICE),
        5 => hour.bands = draw.of(&[&[0][..], &[101], &[1, 1, 0], &[2, 5, 0, 5, 0], &[1, 0, 11]]).to_vec(),
        10 => hour.head[draw.of(&[6, 7, 8, 9, 10])] = past(draw, TARGET),
        19 => hour.head[1] = past(draw, REFERENCE),
        _ => refuse_reading(draw, hour),
    }
}

/// An earlier score, a reading, or one of each past its limit; a reading alone where no earlier score is counted. Also,
/// for sReg, a state that is none, alone or beside them.
fn refuse_reading(draw: &mut Draw, hour: &mut Asked) {
    if !hour.state.is_empty() && draw.one_in(2) {
        hour.state = unfit_state(draw);
        if draw.one_in(2) {
            return;
        }
    }
    let counted = (0..=100).contains(&hour.earlier[0]);
    let both = draw.one_in(4);
    let earlier = counted && (both || draw.one_in(2));
    if earlier {
        set_earlier(draw, &mut hour.earlier, past_score);
    }
    if both || !earlier {
        let second = draw.below(SECONDS);
        let (at, limits) = draw.of(&[(0, POWER), (1, FREQUENCY)]);
        hour.readings[2 * second + at] = past(draw, limits);
    }
}

/// An hour for every set of its refusals: the first in their order is the answer.
pub fn hour_orders(draw: &mut Draw) -> String {
    let mut text = String::new();
    for product in PRODUCTS {
        let refusals = match product {
            Product::Dreg => &[1, 2, 19, 3, 5, 4][..],
            Product::Edreg => &[1, 2, 19, 3, 5, 10, 4],
            Product::Sreg => &[1, 2, 3, 5, 4],
        };
        for set in 1..1 << refusals.len() {
            let mut hour = fit_hour(draw, product);
            for (_, refusal) in refusals.iter().enumerate().filter(|(at, _)| set >> at & 1 == 1) {
                refuse(draw, &mut hour, product, *refusal);
            }
            ask_hour(draw, &mut text, product, &hour.numbers());
        }
    }
    text
}

// ---- frames

pub fn frame(draw: &mut Draw) -> String {
    let mut text = String::new();
    ask_edges(draw, &mut text, "frame", &[KIND, BYTE, BYTE, AMOUNT]);
    for _ in 0..3000 {
        let kind = draw.any(KIND);
        let field = |draw: &mut Draw, limits| if draw.one_in(2) { 0 } else { draw.any(limits) };
        let (day, hour) = (field(draw, BYTE), field(draw, BYTE));
        let amount = if draw.one_in(4) { draw.next() as i64 } else { field(draw, AMOUNT) };
        ask(draw, &mut text, "frame", &[kind, day, hour, amount]);
    }
    text
}

/// A month by its frames: what desk prints for this goes into `ledger`.
pub fn month(draw: &mut Draw) -> String {
    let mut text = String::new();
    ask(draw, &mut text, "frame", &[0, 31, 0, 0]);
    for _ in 0..8 {
        let product = draw.of(&PRODUCTS);
        let mut hour = fit_hour(draw, product);
        if draw.one_in(6) {
            spoil(draw, &mut hour);
        }
        let place = [draw.between(1, 2), draw.between(0, 3)];
        ask_frame(draw, &mut text, product, place, &hour.numbers());
        let (kind, day, hour) = (draw.between(2, 3), draw.between(1, 2), draw.between(0, 3));
        let amount = if kind == 2 { draw.any(AMOUNT) } else { 0 };
        ask(draw, &mut text, "frame", &[kind, day, hour, amount]);
    }
    let loss = tied_loss(draw);
    ask(draw, &mut text, "loss_frames", &loss);
    if draw.one_in(2) {
        let (kind, fee) = (draw.of(&[4, 6]), draw.between(0, 1_000_000));
        ask(draw, &mut text, "frame", &[kind, 0, 0, fee]);
    }
    ask(draw, &mut text, "frame", &[5, 0, 0, 0]);
    text
}

// ---- reading

const STRANGERS: [&str; 27] = [
    "reach",
    "curves",
    "kilowatt",
    "_",
    "a",
    "abcdefghijkl",
    "abcdefghijklm",
    "edreg_scores",
    "edreg_scoresx",
    "curve1",
    "dregframe",
    "x-1",
    "e.5",
    "scorE",
    "curve-",
    "dreg__scores",
    "sregs",
    "sreg_score",
    "sreg_frame",
    "pairs",
    "pairframe",
    "refused",
    "total",
    "line",
    "fee.",
    "ramp\u{e9}",
    "frame\0",
];

const JUNK: [&str; 20] = [
    "-", "--3", "1-2", "12x", "6.5", "+5", "Curve", "\u{e9}", "\0", "0x10", "1_000", "-a", ".", "!", "5-", "-0-", "1e3", "\u{b}", "\"7\"",
    "RATE",
];

const LARGE: [&str; 12] = [
    "9223372036854775807",
    "9223372036854775808",
    "-9223372036854775808",
    "-9223372036854775809",
    "18446744073709551615",
    "18446744073709551616",
    "-18446744073709551616",
    "36893488147419103232",
    "340282366920938463463374607431768211456",
    "00000000000000000000000000000000009223372036854775807",
    "-00000000000000000000000009223372036854775809",
    "99999999999999999999",
];

/// Words with how many numbers each takes (and what those may be, when right).
const SMALL: [(&str, &[Limits]); 10] = [
    ("kilowatts", &[MEGAWATTS]),
    ("curve", &[FREQUENCY, REFERENCE]),
    ("fee", &[PRICE, CAPACITY]),
    ("quality", &[FEE, FEE, FACTOR]),
    ("score", &[POWER, TARGET, CAPACITY, FREQUENCY, REFERENCE]),
    ("loss", &[ENERGY, ENERGY, VOLTAGE, COST]),
    ("loss_frames", &[ENERGY, ENERGY, VOLTAGE, COST]),
    ("bands", &[THRESHOLD, FACTOR]),
    ("pair", &[BITS, BITS]),
    ("pair_frame", &[PLACE, BITS, BITS]),
];

/// What stands between tokens here: all sorts of separators and comments, in any number.
fn wild_gap(draw: &mut Draw, text: &mut String) {
    for _ in 0..=draw.below(3) {
        text.push_str(if draw.one_in(2) { " " } else { draw.of(&GAPS) });
    }
}

fn wild_question(draw: &mut Draw, text: &mut String) {
    let (word, limits) = draw.of(&SMALL);
    text.push_str(word);
    let mut numbers: Vec<_> = limits.iter().map(|limit| draw.any(*limit)).collect();
    match draw.below(6) {
        0 => drop(numbers.pop()),
        1 => numbers.push(7),
        _ => {}
    }
    for number in numbers {
        wild_gap(draw, text);
        text.push_str(&spelled(draw, number));
    }
}

fn wild_token(draw: &mut Draw, text: &mut String) {
    match draw.below(12) {
        0..=5 => wild_question(draw, text),
        6 => text.push_str(draw.of(&STRANGERS)),
        7 => text.push_str(draw.of(&JUNK)),
        8 => text.push_str(draw.of(&LARGE)),
        9 => text.push_str("# curve 60000 60000, 12\r"),
        10 => text.push_str(&draw.any(SCORE).to_string()),
        _ => text.push_str(&format!("curve 60000 {}#x", draw.of(&LARGE))),
    }
}

fn wild(draw: &mut Draw, tokens: usize) -> String {
    let mut text = String::new();
    if draw.one_in(3) {
        wild_gap(draw, &mut text);
    }
    for at in 0..tokens {
        if at > 0 {
            wild_gap(draw, &mut text);
        }
        wild_token(draw, &mut text);
    }
    if draw.one_in(2) {
        wild_gap(draw, &mut text);
    }
    text
}

/// A short text, for how an input begins and ends; now and then with no token at all.
pub fn short_text(draw: &mut Draw) -> String {
    match draw.below(20) {
        0 => String::new(),
        1 => " ,\t\r\n\n# nothing".to_string(),
        _ => {
            let tokens = draw.below(12);
            wild(draw, tokens)
        }
    }
}

pub fn long_text(draw: &mut Draw) -> String {
    wild(draw, 6000)
}

/// Tokens and comments of any length.
fn ask_lengthy(draw: &mut Draw, text: &mut String) {
    let long = draw.between(1000, 200_000) as usize;
    let (zeros, nines, letters) = ("0".repeat(long), "9".repeat(long), "a".repeat(long));
    text.push_str(&format!("curve {zeros}60000 60000\nfee 1 -{zeros}\ncurve {nines}\n{letters} 3\ncurve # {letters}\n60000 60000\ncurve {letters}"));
    text.push_str(&format!("{}curve{}60000 60000\n", "\n".repeat(long), " ".repeat(long)));
}

/// As many numbers as this, on lines of some length.
fn ask_count(draw: &mut Draw, text: &mut String, word: &str, count: usize) {
    text.push_str(word);
    let on_a_line = draw.between(1, 900) as usize;
    for at in 0..count {
        text.push_str(if at % on_a_line == 0 { "\n" } else { " " });
        text.push_str(draw.of(&["0", "1", "7"]));
    }
    text.push('\n');
}

/// An E with as many scores as it counts, none of them, one short and one over, before all that else belongs to the question.
fn earlier_counts(draw: &mut Draw, text: &mut String, product: Product, count: i64) {
    let mut hour = fit_hour(draw, product);
    let right = if (0..=100).contains(&count) { count as usize } else { 0 };
    for came in [right, 0, right.saturating_sub(1), right + 1] {
        hour.earlier = vec![100; 1 + came];
        hour.earlier[0] = count;
        ask_hour(draw, text, product, &hour.numbers());
        ask_rate(draw, text, &hour.earlier, &[100; SECONDS]);
        ask_reached(draw, text, 100, &hour.earlier, &[100; SECONDS]);
    }
    ask(draw, text, hour_words(product)[0], &[&hour.head[..], &hour.bands, &hour.earlier[..1]].concat());
    ask(draw, text, "rate", &[count]);
    ask(draw, text, "reached", &[100, count]);
}

/// Questions whose counts are right, one short, one over, or past the 8,192 that a question holds.
pub fn counts(draw: &mut Draw) -> String {
    let mut text = String::new();
    let few = [("curve", 2), ("score", 5), ("ramp", 2), ("pair", 2), ("pair_frame", 3), ("reached", 1), ("dreg", 5), ("edreg", 12), ("sreg", 8)];
    let many = [("energy", 3606), ("bands", 8192), ("factor", 8192)];
    for (word, count) in few.into_iter().chain(many) {
        for near in count - 1..=count + 2 {
            ask_count(draw, &mut text, word, near);
        }
    }
    let words = [
        ("dreg", Product::Dreg),
        ("edreg", Product::Edreg),
        ("dreg_scores", Product::Dreg),
        ("edreg_frame", Product::Edreg),
        ("sreg", Product::Sreg),
        ("sreg_scores", Product::Sreg),
        ("sreg_frame", Product::Sreg),
    ];
    for (word, product) in words {
        let numbers = fit_hour(draw, product).numbers();
        let place: &[i64] = if word.ends_with("frame") { &[1, 2] } else { &[] };
        for short in [0, 1, 2, 3] {
            ask(draw, &mut text, word, &[place, &numbers[..numbers.len() - short]].concat());
        }
        ask(draw, &mut text, word, &[place, &numbers, &[0; 1][..]].concat());
        ask(draw, &mut text, word, &[place, &numbers, &[0; 1000][..]].concat());
    }
    for count in [0, 1, 2, 3, 4, 100, 101, -1, i64::MIN, i64::MAX] {
        let product = draw.of(&[Product::Dreg, Product::Edreg]);
        earlier_counts(draw, &mut text, product, count);
        earlier_counts(draw, &mut text, Product::Sreg, count);
    }
    for (word, after) in [("rate", "12x 5\n"), ("bands", "12x\n"), ("nothing", "12x\n"), ("kilowatts", "")] {
        ask_count(draw, &mut text, word, 8193);
        text.push_str(after);
    }
    ask_lengthy(draw, &mut text);
    text
}
