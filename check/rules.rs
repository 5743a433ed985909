//! Document 01's rules for an hour, a ramp and the loss fee, with document 02's #102, #103 and #107, from the papers alone,
//! as they define them: exact fractions in 128 bits, no tables, windows as the papers word them, events as stretches of
//! seconds. Every function takes any 64-bit numbers.

use crate::faults::{wrong, Fault};
use std::ops::{Add, Mul};

// ---- limits ("Numbers that are turned away"), both ends included

#[derive(Clone, Copy)]
pub struct Limits(pub i64, pub i64);

impl Limits {
    pub fn hold(self, x: i64) -> bool {
        self.0 <= x && x <= self.1
    }

    fn hold_all(self, run: &[i64]) -> bool {
        run.iter().all(|x| self.hold(*x))
    }
}

pub const MEGAWATTS: Limits = Limits(-100, 100);
pub const CAPACITY: Limits = Limits(1, 100_000);
pub const PRICE: Limits = Limits(0, 10_000_000);
pub const COST: Limits = Limits(0, 1_000_000);
pub const POWER: Limits = Limits(-200_000, 200_000);
pub const FREQUENCY: Limits = Limits(55_000, 65_000);
/// The curve's reference, where it stands in document 01, and how far it may be moved (#107).
pub const NOMINAL: i64 = 60_000;
pub const REFERENCE: Limits = Limits(59_500, 60_500);
pub const SCORE: Limits = Limits(0, 100);
pub const RECORDS: Limits = Limits(1, 16);
pub const THRESHOLD: Limits = Limits(0, 100);
pub const FACTOR: Limits = Limits(-240, 10);
pub const TARGET: Limits = Limits(-100_000, 100_000);
pub const ENERGY: Limits = Limits(0, 100_000_000);
pub const VOLTAGE: Limits = Limits(1, 1_000_000);
/// A fee handed in: the paper has no limit for it; docs/DECISIONS.md takes the dearest fee that an hour can have.
pub const FEE: Limits = Limits(0, 10_000_000);

// ---- refusals in their order ("Order")

/// An answer, or the number of the refusal.
pub type Answer<T> = Result<T, u8>;

/// Of the refusals that hold, the first in the order given.
pub fn first_refused(order: &[u8], holding: &[(u8, bool)]) -> Answer<()> {
    let holds = |number: &&u8| holding.iter().any(|(n, h)| n == *number && *h);
    order.iter().find(holds).map_or(Ok(()), |number| Err(*number))
}

/// "Hour, and calls for a part of its work: 1, 2, 3, 5, 10, 4", and 19 "directly after 2" (#107). A run's length, 1, is desk's to count, but
/// for the earlier scores.
fn hour_order() -> &'static [u8] {
    if wrong(Fault::PriceBeforeCapacity) {
        &[1, 3, 2, 19, 5, 10, 4]
    } else if wrong(Fault::CountAfterCapacity) {
        &[2, 1, 19, 3, 5, 10, 4]
    } else if wrong(Fault::ReferenceBeforeCapacity) {
        &[1, 19, 2, 3, 5, 10, 4]
    } else if wrong(Fault::ReferenceAfterPrices) {
        &[1, 2, 3, 19, 5, 10, 4]
    } else if wrong(Fault::ReferenceLast) {
        &[1, 2, 3, 5, 10, 4, 19]
    } else {
        &[1, 2, 19, 3, 5, 10, 4]
    }
}

// ---- exact numbers ("Units")

/// `over` / `under`, with `under` above 0.
#[derive(Clone, Copy)]
pub struct Fraction {
    over: i128,
    under: i128,
}

pub fn fraction(over: i64, under: i64) -> Fraction {
    Fraction { over: over.into(), under: under.into() }
}

fn whole(x: i64) -> Fraction {
    fraction(x, 1)
}

impl Add for Fraction {
    type Output = Fraction;
    fn add(self, other: Fraction) -> Fraction {
        if self.under == other.under {
            return Fraction { over: self.over + other.over, under: self.under };
        }
        Fraction { over: self.over * other.under + other.over * self.under, under: self.under * other.under }
    }
}

impl Mul for Fraction {
    type Output = Fraction;
    fn mul(self, other: Fraction) -> Fraction {
        Fraction { over: self.over * other.over, under: self.under * other.under }
    }
}

fn narrow(x: i128) -> i64 {
    i64::try_from(x).expect("an answer of the paper fits 64 bits")
}

impl Fraction {
    pub fn floor(self) -> i64 {
        narrow(self.over.div_euclid(self.under))
    }

    pub fn ceiling(self) -> i64 {
        -Fraction { over: -self.over, under: self.under }.floor()
    }

    /// "Nearest whole number, with a half going away from zero": of the two neighbours the nearer one.
    pub fn nearest(self) -> i64 {
        let below = self.over.div_euclid(self.under);
        let past = 2 * (self.over - below * self.under);
        let away = if wrong(Fault::HalfTowardZero) { self.over < 0 } else { self.over > 0 };
        let up = past > self.under || (past == self.under && away);
        narrow(if up { below + 1 } else { below })
    }

    fn at_least_zero(self) -> Fraction {
        if self.over < 0 {
            whole(0)
        } else {
            self
        }
    }
}

/// "The one conversion that multiplies it by 1,000."
pub fn kilowatts(megawatts: i64) -> Answer<i64> {
    first_refused(&[10], &[(10, !MEGAWATTS.hold(megawatts))])?;
    Ok(megawatts * 1000)
}

// ---- "The power curve"

/// Millihertz, upper and lower percent.
const CORNERS: [(i64, i64, i64); 6] =
    [(59_750, 100, 100), (59_860, 52, 52), (59_980, 9, -9), (60_020, 9, -9), (60_140, -52, -52), (60_250, -100, -100)];

/// The straight line from (x0, y0) to (x1, y1) at x, to the nearest percent.
fn on_line(x: i64, (x0, y0): (i64, i64), (x1, y1): (i64, i64)) -> i64 {
    (whole(y0) + fraction((y1 - y0) * (x - x0), x1 - x0)).nearest()
}

/// One of the two bounds at any frequency, on lines between these corners: millihertz and percent.
fn bound(frequency: i64, corners: [(i64, i64); 6]) -> i64 {
    let held = frequency.clamp(corners[0].0, corners[5].0);
    let side = corners.windows(2).find(|pair| held <= pair[1].0).expect("held to the corners");
    on_line(held, side[0], side[1])
}

/// The upper and the lower bound at any frequency: "every corner moves with [the reference]" (#107).
pub fn bounds(frequency: i64, reference: i64) -> (i64, i64) {
    let by = match reference - NOMINAL {
        _ if wrong(Fault::CornersStay) => 0,
        by if wrong(Fault::MovedTheOtherWay) => -by,
        by => by,
    };
    let lower_by = if wrong(Fault::UpperBoundAlone) { 0 } else { by };
    (bound(frequency, CORNERS.map(|(f, upper, _)| (f + by, upper))), bound(frequency, CORNERS.map(|(f, _, lower)| (f + lower_by, lower))))
}

fn reference_fits(reference: i64) -> bool {
    REFERENCE.hold(reference) || wrong(Fault::ReferencePastItsRange) && reference == REFERENCE.1 + 1
}

pub fn curve(frequency: i64, reference: i64) -> Answer<(i64, i64)> {
    first_refused(hour_order(), &[(19, !reference_fits(reference)), (4, !FREQUENCY.hold(frequency))])?;
    Ok(bounds(frequency, reference))
}

// ---- "A second's score, an hour's rate"

/// "The nearest whole percent of (power minus scheduled transfer) over capacity."
fn percent_output(power: i64, transfer: i64, capacity: i64) -> i64 {
    fraction(100 * (power - transfer), capacity).nearest()
}

fn score_of(percent: i64, frequency: i64, reference: i64) -> i64 {
    let (upper, lower) = bounds(frequency, reference);
    if lower <= percent && percent <= upper {
        return 100;
    }
    let distance = (percent - upper).abs().min((percent - lower).abs());
    (100 - distance).max(0)
}

pub fn score(power: i64, transfer: i64, capacity: i64, frequency: i64, reference: i64) -> Answer<i64> {
    let readings = POWER.hold(power) && FREQUENCY.hold(frequency);
    let referred = reference_fits(reference);
    first_refused(hour_order(), &[(2, !CAPACITY.hold(capacity)), (19, !referred), (10, !TARGET.hold(transfer)), (4, !readings)])?;
    Ok(score_of(percent_output(power, transfer, capacity), frequency, reference))
}

/// The scores before an hour's first second (#102), the oldest first: how many there are said to be, and those that came.
pub struct Earlier {
    pub count: i64,
    pub scores: Vec<i64>,
}

impl Earlier {
    /// "The hour takes these 3 earlier scores or 0."
    fn counts(&self) -> bool {
        match self.count {
            0 | 3 => true,
            2 => wrong(Fault::TwoTaken),
            1..=100 => false,
            _ => wrong(Fault::UncountedAsNone),
        }
    }
}

/// The score of a second, where one is known: second 1 is the hour's first, second 0 the last of the hour before.
fn known(earlier: &[i64], scores: &[i64], second: i64) -> Option<i64> {
    if second > 0 {
        return scores.get(second as usize - 1).copied();
    }
    let back = second.unsigned_abs() as usize;
    match back {
        2 if wrong(Fault::OldestDropped) => None,
        _ if wrong(Fault::EarlierTurned) => earlier.get(back).copied(),
        _ => earlier.iter().rev().nth(back).copied(),
    }
}

/// "The largest score of seconds t-3 to t": those of them that are known. With no earlier score "the windows of seconds 1, 2 and 3 hold
/// only this hour's seconds".
pub fn rolling(earlier: &[i64], scores: &[i64], t: i64) -> i64 {
    let first = match t {
        4 if wrong(Fault::FourthSecondToo) => 0,
        _ if wrong(Fault::WindowOfThree) => t - 2,
        _ => t - 3,
    };
    (first..=t).filter_map(|second| known(earlier, scores, second)).max().expect("a window holds its second")
}

pub fn rate_of(earlier: &[i64], scores: &[i64]) -> i64 {
    (1..=scores.len() as i64).map(|t| rolling(earlier, scores, t)).min().expect("an hour has seconds")
}

pub fn rate(earlier: &Earlier, scores: &[i64]) -> Answer<i64> {
    let fit = SCORE.hold_all(&earlier.scores) && SCORE.hold_all(scores);
    let order = if wrong(Fault::ScoreBeforeCount) { &[4, 1] } else { hour_order() };
    first_refused(order, &[(1, !earlier.counts()), (4, !fit)])?;
    Ok(rate_of(&earlier.scores, scores))
}

// ---- "Did the hour reach 95?" (#106)

pub struct Verdict {
    pub reached: bool,
    pub second: i64,
    pub judged: i64,
    pub read: i64,
}

/// How many scores of second t's window are read: "from its newest score back and left at the first score at or above the threshold".
fn read_of(earlier: &[i64], scores: &[i64], threshold: i64, t: i64) -> i64 {
    let first = if wrong(Fault::ReadPastFour) { t - 4 } else { t - 3 };
    let back: Vec<_> = (first..=t).rev().filter_map(|second| known(earlier, scores, second)).collect();
    let met = back.iter().position(|score| *score >= threshold);
    match met {
        Some(at) if !wrong(Fault::ReadToTheEnd) => at as i64 + 1,
        _ => back.len() as i64,
    }
}

/// "The first second whose whole window stays below the threshold": its rolling rate does.
fn named(earlier: &[i64], scores: &[i64], threshold: i64) -> Option<i64> {
    let least = if wrong(Fault::AtIsBelow) { threshold + 1 } else { threshold };
    let mut below = (1..=scores.len() as i64).filter(|t| rolling(earlier, scores, *t) < least);
    if wrong(Fault::LastForFirst) {
        below.last()
    } else {
        below.next()
    }
}

pub fn reached(earlier: &Earlier, scores: &[i64], threshold: i64) -> Answer<Verdict> {
    let fit = SCORE.hold_all(&earlier.scores) && SCORE.hold_all(scores);
    let order = if wrong(Fault::ThresholdBeforeScore) { [1, 5, 4] } else { [1, 4, 5] };
    first_refused(&order, &[(1, !earlier.counts()), (4, !fit), (5, !THRESHOLD.hold(threshold))])?;
    let found = named(&earlier.scores, scores, threshold);
    let last = found.unwrap_or(scores.len() as i64);
    let mut read = (1..=last).map(|t| read_of(&earlier.scores, scores, threshold, t)).sum();
    if wrong(Fault::CheckCounted) {
        read += (earlier.scores.len() + scores.len()) as i64;
    }
    let judged = if wrong(Fault::NamedNotJudged) && found.is_some() { last - 1 } else { last };
    Ok(Verdict { reached: found.is_none(), second: found.unwrap_or(0), judged, read })
}

// ---- "The transfer ramp"

/// Second n of a quarter, n from 1 to 900.
fn ramp_second(last: i64, target: i64, n: i64) -> i64 {
    let rise = target - last;
    let way = fraction(n * rise, 300);
    let dropped = wrong(Fault::RampTowardZero);
    match rise.signum() {
        _ if n > 300 => target,
        1 => last + if dropped { way.floor() } else { way.ceiling() },
        -1 => last + if dropped { way.ceiling() } else { way.floor() },
        _ => last,
    }
}

fn quarter(last: i64, target: i64) -> Vec<i64> {
    (1..=900).map(|n| ramp_second(last, target, n)).collect()
}

pub fn ramp(last: i64, target: i64) -> Answer<Vec<i64>> {
    first_refused(&[10], &[(10, !TARGET.hold_all(&[last, target]))])?;
    Ok(quarter(last, target))
}

// ---- "Quality bands"

pub struct Band {
    pub threshold: i64,
    pub factor: i64,
}

fn bands_fit(list: &[Band]) -> bool {
    RECORDS.hold(list.len() as i64)
        && list.iter().all(|band| THRESHOLD.hold(band.threshold) && FACTOR.hold(band.factor))
        && list.windows(2).all(|pair| pair[0].threshold > pair[1].threshold)
        && list[list.len() - 1].threshold == 0
}

pub fn bands(list: &[Band]) -> Answer<()> {
    first_refused(hour_order(), &[(5, !bands_fit(list))])
}

/// "The first record whose threshold is at most the rate gives the factor."
fn factor_of(list: &[Band], rate: i64) -> i64 {
    let strict = wrong(Fault::BandBelowTheRate) && rate > 0;
    let reached = |band: &&Band| if strict { band.threshold < rate } else { band.threshold <= rate };
    list.iter().find(reached).expect("the last threshold is 0").factor
}

pub fn factor(list: &[Band], rate: i64) -> Answer<i64> {
    first_refused(hour_order(), &[(5, !bands_fit(list)), (4, !SCORE.hold(rate))])?;
    Ok(factor_of(list, rate))
}

// ---- "Fees of one hour"

/// Dollars of a price in hundredths.
fn dollars(price: i64) -> Fraction {
    fraction(price, 100)
}

/// Megawatts of kilowatts.
fn megawatts(kilowatts: Fraction) -> Fraction {
    kilowatts * fraction(1, 1000)
}

fn fee_of(price: i64, capacity: i64) -> i64 {
    (dollars(price) * megawatts(whole(capacity))).nearest()
}

pub fn fee(price: i64, capacity: i64) -> Answer<i64> {
    first_refused(hour_order(), &[(2, !CAPACITY.hold(capacity)), (3, !PRICE.hold(price))])?;
    Ok(fee_of(price, capacity))
}

fn quality_of(capacity_fee: i64, performance_fee: i64, factor: i64) -> i64 {
    (whole(capacity_fee + performance_fee) * fraction(factor, 10)).nearest()
}

pub fn quality(capacity_fee: i64, performance_fee: i64, factor: i64) -> Answer<i64> {
    first_refused(hour_order(), &[(3, !FEE.hold_all(&[capacity_fee, performance_fee])), (5, !FACTOR.hold(factor))])?;
    Ok(quality_of(capacity_fee, performance_fee, factor))
}

/// What an E-dReg hour has beside a dReg one.
pub struct Shift {
    pub discharge: i64,
    pub charge: i64,
    pub before: i64,
    pub targets: [i64; 4],
}

/// "Each quarter's mean power x price x 1/4 hour", in dollars.
fn quarter_energy(shift: &Shift, target: i64, powers: &[i64]) -> Fraction {
    let mean = fraction(powers.iter().sum(), powers.len() as i64);
    let price = match target.signum() {
        1 => shift.discharge,
        -1 => -shift.charge,
        _ => 0,
    };
    megawatts(mean) * dollars(price) * fraction(1, 4)
}

/// "The four are added exactly and rounded once."
fn energy_of(shift: &Shift, powers: &[i64]) -> i64 {
    let quarters = shift.targets.iter().zip(powers.chunks(900));
    let parts = quarters.map(|(target, seconds)| quarter_energy(shift, *target, seconds));
    if wrong(Fault::QuartersRounded) {
        return parts.map(Fraction::nearest).sum();
    }
    parts.fold(fraction(0, 360_000_000), Fraction::add).nearest()
}

pub fn energy(shift: &Shift, powers: &[i64]) -> Answer<i64> {
    let prices = PRICE.hold_all(&[shift.discharge, shift.charge]);
    first_refused(hour_order(), &[(3, !prices), (10, !TARGET.hold_all(&shift.targets)), (4, !POWER.hold_all(powers))])?;
    Ok(energy_of(shift, powers))
}

// ---- "Static regulation hours" (#103)

const START: i64 = 59_880;
const RETURN: i64 = 59_980;
/// How many seconds score 100 from an event's start, and how many after its end.
const FIRST: usize = 10;
const AFTER: usize = 10;
/// The seconds of the first ten that are over, and those left of the ten after, where an hour can end in them.
pub const SCORED: Limits = Limits(1, 9);
pub const LEFT: Limits = Limits(1, 10);

/// What an hour begins in and ends in.
#[derive(Clone, Copy, PartialEq)]
pub enum State {
    Outside,
    /// Within the first ten seconds of an event: the power of its start, and how many of the ten are over.
    Responding {
        start: i64,
        scored: i64,
    },
    /// Later in an event.
    Holding {
        start: i64,
    },
    /// Within the ten seconds after an event: how many are left.
    Recovering {
        left: i64,
    },
}

fn can_end_an_hour(state: State) -> bool {
    match state {
        State::Outside => true,
        State::Responding { start, scored: 10 } if wrong(Fault::TenScoredTaken) => POWER.hold(start),
        State::Responding { start, scored } => POWER.hold(start) && SCORED.hold(scored),
        State::Holding { start } => POWER.hold(start),
        State::Recovering { left } => LEFT.hold(left),
    }
}

/// A second's power and frequency.
pub type Second = (i64, i64);

/// An event by the places of its first second and, where it is over, of its last.
struct Event {
    start: usize,
    end: Option<usize>,
}

/// "An event starts in the second the frequency is at or below 59.88 Hz" and lasts "until the second at or above 59.98
/// Hz". Falls and returns take turns, wherever they come: a return in the first ten seconds ends an event, a fall in
/// the ten seconds after it starts one.
fn events(frequencies: &[i64]) -> Vec<Event> {
    let start_mark = if wrong(Fault::StartAbove) { START + 1 } else { START };
    let return_mark = if wrong(Fault::ReturnBelow) { RETURN - 1 } else { RETURN };
    let least = if wrong(Fault::EarlyReturnIgnored) { FIRST } else { 1 };
    let deaf = if wrong(Fault::FallIgnored) { 1 + AFTER } else { 1 };
    let falls = |from: usize| (from..frequencies.len()).find(|at| frequencies[*at] <= start_mark);
    let returns = |from: usize| (from..frequencies.len()).find(|at| frequencies[*at] >= return_mark);
    let mut list = Vec::new();
    let mut next = falls(0);
    while let Some(start) = next {
        let end = returns(start + least);
        let within = |fall: &usize| wrong(Fault::StartedAnew) && end.is_none_or(|end| *fall < end);
        let anew = falls(start + 1).filter(within);
        list.push(Event { start, end: anew.or(end) });
        next = anew.or(end.and_then(|end| falls(end + deaf)));
    }
    list
}

/// What a second is judged by.
#[derive(Clone, Copy)]
pub enum Judged {
    /// Its own power: outside events.
    Standby,
    /// Nothing: it scores 100.
    Full,
    /// Its power beside that of the second at this place, in which the event started.
    Since(usize),
}

/// Every event laid over the seconds in its turn: all of its own, those from the eleventh on, the ten after it. A later
/// event lies over these.
pub fn judged(frequencies: &[i64]) -> Vec<Judged> {
    let count = frequencies.len();
    let first = if wrong(Fault::ElevenAtFirst) { 11 } else { FIRST };
    let after = if wrong(Fault::NineAfter) { 9 } else { AFTER };
    let mut list = vec![Judged::Standby; count];
    for Event { start, end } in events(frequencies) {
        let over = end.map_or(count, |end| end + 1);
        let judged = if wrong(Fault::EndNotJudged) { end.unwrap_or(count) } else { over };
        list[start..over].fill(Judged::Full);
        list[judged.min(start + first)..judged].fill(Judged::Since(start));
        list[over..count.min(over + after)].fill(Judged::Full);
    }
    list
}

/// "The start second's power."
fn start_power(run: &[Second], start: usize) -> i64 {
    run[if wrong(Fault::PowerBeforeStart) { start.saturating_sub(1) } else { start }].0
}

fn frequencies_of(run: &[Second]) -> Vec<i64> {
    let own = run.iter().map(|(_, frequency)| *frequency);
    if wrong(Fault::SecondBefore) {
        return run.iter().take(1).map(|(_, frequency)| *frequency).chain(own).take(run.len()).collect();
    }
    own.collect()
}

/// The scores of a run of seconds, of any length, that begins outside events.
fn run_scores(capacity: i64, run: &[Second]) -> Vec<i64> {
    let percent = |kilowatts: i64| percent_output(kilowatts, 0, capacity).clamp(SCORE.0, SCORE.1);
    let score = |(judged, (power, _)): (Judged, &Second)| match judged {
        Judged::Standby => percent(*power),
        Judged::Full => SCORE.1,
        Judged::Since(start) => percent(start_power(run, start) - power),
    };
    judged(&frequencies_of(run)).into_iter().zip(run).map(score).collect()
}

/// The state after a run of seconds that begins outside events: its last event tells.
fn run_end(run: &[Second]) -> State {
    let Some(Event { start, end }) = events(&frequencies_of(run)).pop() else {
        return State::Outside;
    };
    let power = start_power(run, start);
    match (run.len() - start, end.map(|end| run.len() - 1 - end)) {
        (scored, None) if scored < FIRST => State::Responding { start: power, scored: scored as i64 },
        (_, None) => State::Holding { start: power },
        (_, Some(past)) if past < AFTER => State::Recovering { left: (AFTER - past) as i64 },
        _ => State::Outside,
    }
}

/// Seconds that lead from outside into a state: one that starts an event, and so many more.
pub fn lead_in(state: State) -> Vec<Second> {
    let event = |power: i64, seconds: usize| [vec![(power, START)], vec![(0, START + 20); seconds - 1]].concat();
    match state {
        _ if wrong(Fault::StateDropped) => Vec::new(),
        State::Outside => Vec::new(),
        State::Responding { start, scored } => event(start, scored as usize),
        State::Holding { start } => event(start, FIRST),
        State::Recovering { left } => [event(0, 1), vec![(0, RETURN); 1 + AFTER - left as usize]].concat(),
    }
}

/// The scores of seconds after a state, and the state that they end in: they are the last of a run that begins outside.
pub fn scores_after(state: State, capacity: i64, seconds: &[Second]) -> (Vec<i64>, State) {
    let begun = lead_in(state);
    let run = [&begun[..], seconds].concat();
    (run_scores(capacity, &run).split_off(begun.len()), run_end(&run))
}

// ---- the hour

/// What an hour has beside that of dReg, by its product.
pub enum Beside {
    Nothing,
    /// E-dReg.
    Shift(Shift),
    /// sReg: the state handed in, where what was handed in is one.
    State(Option<State>),
}

/// An hour handed in.
pub struct Hour {
    pub capacity: i64,
    /// None for sReg, whose hours have no curve.
    pub reference: Option<i64>,
    pub clearing: i64,
    pub performance: i64,
    pub beside: Beside,
    pub bands: Vec<Band>,
    pub earlier: Earlier,
    pub powers: Vec<i64>,
    pub frequencies: Vec<i64>,
}

impl Hour {
    fn shift(&self) -> Option<&Shift> {
        match &self.beside {
            Beside::Shift(shift) => Some(shift),
            _ => None,
        }
    }

    /// "Powers and frequencies of the same seconds."
    fn seconds(&self) -> Vec<Second> {
        self.powers.iter().copied().zip(self.frequencies.iter().copied()).collect()
    }

    /// Whether a state is handed in that no hour can end in.
    fn state_unfit(&self) -> bool {
        matches!(self.beside, Beside::State(state) if !state.is_some_and(can_end_an_hour))
    }
}

pub struct Settled {
    pub scores: Vec<i64>,
    /// What an sReg hour ends in.
    pub state: State,
    pub rate: i64,
    pub factor: i64,
    pub capacity_fee: i64,
    pub performance_fee: i64,
    pub quality: i64,
    pub energy: i64,
    pub amount: i64,
}

/// The scheduled transfers of an hour's 3,600 seconds: "the target before the hour and four quarter targets".
pub fn transfers(shift: &Shift) -> Vec<i64> {
    let [first, second, third, fourth] = shift.targets;
    let ways = [(shift.before, first), (first, second), (second, third), (third, fourth)];
    ways.iter().flat_map(|(last, target)| quarter(*last, *target)).collect()
}

/// "The power of second t is judged by the frequency of second t-1": the two stand at the same place of their runs.
fn scores_of(hour: &Hour) -> Vec<i64> {
    let planned = hour.shift().map_or(vec![0; hour.powers.len()], transfers);
    let reference = hour.reference.expect("an hour with a curve has a reference");
    let judged_by = |at: usize| if wrong(Fault::OwnSecond) { (at + 1).min(hour.frequencies.len() - 1) } else { at };
    let second = |at: usize| score_of(percent_output(hour.powers[at], planned[at], hour.capacity), hour.frequencies[judged_by(at)], reference);
    (0..hour.powers.len()).map(second).collect()
}

fn hour_refused(hour: &Hour) -> Answer<()> {
    let award = PRICE.hold_all(&[hour.clearing, hour.performance]);
    let shift = hour.shift();
    let shift_prices = shift.iter().all(|shift| PRICE.hold_all(&[shift.discharge, shift.charge]));
    let shift_targets = shift.iter().all(|shift| TARGET.hold(shift.before) && TARGET.hold_all(&shift.targets));
    let readings = POWER.hold_all(&hour.powers) && FREQUENCY.hold_all(&hour.frequencies);
    let earlier = SCORE.hold_all(&hour.earlier.scores);
    let earlier_first = wrong(Fault::EarlierBeforeCapacity) && !earlier;
    let state_first = wrong(Fault::StateBeforeCapacity) && hour.state_unfit();
    if (earlier_first || state_first) && hour.earlier.counts() {
        return Err(4);
    }
    first_refused(
        hour_order(),
        &[
            (1, !hour.earlier.counts()),
            (2, !CAPACITY.hold(hour.capacity)),
            (19, hour.reference.is_some_and(|reference| !reference_fits(reference))),
            (3, !(award && shift_prices)),
            (5, !bands_fit(&hour.bands)),
            (10, !shift_targets),
            (4, !(readings && earlier) || hour.state_unfit()),
        ],
    )
}

pub fn settle(hour: &Hour) -> Answer<Settled> {
    hour_refused(hour)?;
    let (scores, state) = match hour.beside {
        Beside::State(Some(state)) => scores_after(state, hour.capacity, &hour.seconds()),
        _ => (scores_of(hour), State::Outside),
    };
    let rate = rate_of(&hour.earlier.scores, &scores);
    let factor = factor_of(&hour.bands, rate);
    let capacity_fee = fee_of(hour.clearing, hour.capacity);
    let performance_fee = fee_of(hour.performance, hour.capacity);
    let quality = quality_of(capacity_fee, performance_fee, factor);
    let energy = hour.shift().map_or(0, |shift| energy_of(shift, &hour.powers));
    let amount = quality + energy;
    Ok(Settled { scores, state, rate, factor, capacity_fee, performance_fee, quality, energy, amount })
}

// ---- "Loss fee"

fn loss_factor(volts: i64) -> Fraction {
    let medium_from = if wrong(Fault::VoltageInclusive) { 11_401 } else { 11_400 };
    match volts {
        v if v < medium_from => fraction(108, 100),
        v if v < 69_000 => fraction(105, 100),
        _ => fraction(104, 100),
    }
}

/// The basic and the excess fee; the cost is in ten-thousandths of a dollar.
pub fn loss(charged: i64, discharged: i64, volts: i64, cost: i64) -> Answer<(i64, i64)> {
    let energies = ENERGY.hold_all(&[charged, discharged]) && VOLTAGE.hold(volts);
    first_refused(&[15, 3], &[(15, !energies), (3, !COST.hold(cost))])?;
    let net = whole(charged - discharged).at_least_zero();
    let above_a_fifth = (net + fraction(-charged, 5)).at_least_zero();
    let each = loss_factor(volts) * fraction(cost, 10_000);
    Ok(((net * each).nearest(), (above_a_fifth * each * whole(2)).nearest()))
}
