//! The text form of `desk`: how it reads questions, and the lines that it prints for each. The rules are the papers'
//! (rules.rs, month.rs, logger.rs).

use crate::faults::{wrong, Fault};
use crate::logger;
use crate::month::{write, Frame};
use crate::rules::{self, Answer, Band, Beside, Earlier, Hour, Settled, Shift, State};

const MOST_NUMBERS: usize = 8192;
const MOST_LETTERS: usize = 12;
const SECONDS: usize = 3600;

// ---- reading

pub struct Token<'a> {
    line: usize,
    bytes: &'a [u8],
}

/// A question: the token that opened it, then all that belong to it.
pub struct Question<'a> {
    tokens: Vec<Token<'a>>,
}

fn separates(byte: &u8) -> bool {
    matches!(byte, b' ' | b'\t' | b',' | b'\r')
}

fn is_letter(byte: &u8) -> bool {
    matches!(byte, b'a'..=b'z' | b'_')
}

/// The tokens of a text: each line without its comment, cut at its separators.
fn tokens(text: &[u8]) -> impl Iterator<Item = Token<'_>> {
    let numbered = text.split(|byte| *byte == b'\n').enumerate();
    numbered.flat_map(|(at, line)| {
        let said = line.split(|byte| *byte == b'#').next().unwrap_or(&[]);
        let found = said.split(separates).filter(|bytes| !bytes.is_empty());
        found.map(move |bytes| Token { line: at + 1, bytes })
    })
}

/// "A token whose first byte is a letter begins a question"; any other opens one only where none is open.
pub fn questions(text: &[u8]) -> Vec<Question<'_>> {
    let mut asked: Vec<Question> = Vec::new();
    for token in tokens(text) {
        match asked.last_mut() {
            Some(open) if !is_letter(&token.bytes[0]) => open.tokens.push(token),
            _ => asked.push(Question { tokens: vec![token] }),
        }
    }
    asked
}

/// What is wrong with a question's text: the number of the fault, and its line.
struct Misread {
    fault: u8,
    line: usize,
}

fn fault_words(fault: u8) -> &'static str {
    match fault {
        101 => "not a question",
        102 => "a number too large for 64 bits",
        103 => "too few numbers",
        104 => "too many numbers",
        _ => "not a number",
    }
}

/// "An optional `-`, then 1 or more digits and nothing else", and its value in 64 bits.
fn number(token: &Token) -> Result<i64, Misread> {
    let misread = |fault| Misread { fault, line: token.line };
    let (sign, digits) = token.bytes.strip_prefix(b"-").map_or(("", token.bytes), |rest| ("-", rest));
    if digits.is_empty() || !digits.iter().all(u8::is_ascii_digit) {
        return Err(misread(105));
    }
    let first = digits.iter().position(|digit| *digit != b'0').unwrap_or(digits.len() - 1);
    let significant = String::from_utf8_lossy(&digits[first..]);
    format!("{sign}{significant}").parse().map_err(|_| misread(102))
}

/// How many numbers a word needs.
enum Needs {
    Just(usize),
    /// So many, then pairs.
    Pairs(usize),
    /// So many, then E, E earlier scores and the hour's own.
    Scores(usize),
    /// So many, then an hour of the product.
    HourAfter(usize, Product),
}

/// Whose hours are asked for: a head, N, N pairs of bands, E, E earlier scores, for sReg a state, and the readings.
#[derive(Clone, Copy, PartialEq)]
pub enum Product {
    Dreg,
    Edreg,
    Sreg,
}

impl Product {
    /// How many numbers stand before N.
    fn head(self) -> usize {
        match self {
            Product::Sreg => 3,
            Product::Dreg => 4,
            Product::Edreg => 11,
        }
    }

    /// Where the two award prices stand: after CAPACITY and, but for sReg, REFERENCE.
    pub fn prices_at(self) -> usize {
        match self {
            Product::Sreg => 1,
            Product::Dreg | Product::Edreg => 2,
        }
    }

    /// How many numbers a state has: KIND POWER COUNT.
    fn state(self) -> usize {
        match self {
            Product::Sreg => 3,
            Product::Dreg | Product::Edreg => 0,
        }
    }
}

fn needs(word: &[u8]) -> Option<Needs> {
    let needs = match word {
        b"kilowatts" => Needs::Just(1),
        b"curve" | b"ramp" | b"fee" | b"pair" => Needs::Just(2),
        b"quality" | b"pair_frame" => Needs::Just(3),
        b"loss" | b"frame" | b"loss_frames" => Needs::Just(4),
        b"score" => Needs::Just(5),
        b"rate" => Needs::Scores(0),
        b"reached" => Needs::Scores(1),
        b"energy" => Needs::Just(6 + SECONDS),
        b"bands" => Needs::Pairs(0),
        b"factor" => Needs::Pairs(1),
        b"dreg" | b"dreg_scores" => Needs::HourAfter(0, Product::Dreg),
        b"edreg" | b"edreg_scores" => Needs::HourAfter(0, Product::Edreg),
        b"sreg" | b"sreg_scores" => Needs::HourAfter(0, Product::Sreg),
        b"dreg_frame" => Needs::HourAfter(2, Product::Dreg),
        b"edreg_frame" => Needs::HourAfter(2, Product::Edreg),
        b"sreg_frame" => Needs::HourAfter(2, Product::Sreg),
        _ => return None,
    };
    Some(needs)
}

/// "N outside 0..100 counts as 0", and so does E.
fn members(n: i64) -> usize {
    if (0..=100).contains(&n) {
        n as usize
    } else {
        0
    }
}

/// Where a list ends whose count stands at this place, each of its members so many numbers. A count that is not there counts as 0.
fn list_end(numbers: &[i64], at: usize, each: usize) -> usize {
    at + 1 + each * numbers.get(at).map_or(0, |n| members(*n))
}

/// How many numbers the question should have, told from those that it has.
fn needed(needs: &Needs, numbers: &[i64]) -> usize {
    match *needs {
        Needs::Just(count) => count,
        Needs::Pairs(head) => head + numbers.len().saturating_sub(head).next_multiple_of(2),
        Needs::Scores(head) => list_end(numbers, head, 1) + SECONDS,
        Needs::HourAfter(place, product) => {
            list_end(numbers, list_end(numbers, place + product.head(), 2), 1) + product.state() + 2 * SECONDS
        }
    }
}

/// The question's numbers, or its first fault.
fn numbers(question: &Question) -> Result<Vec<i64>, Misread> {
    let opened = &question.tokens[0];
    let known = if opened.bytes.len() <= MOST_LETTERS { needs(opened.bytes) } else { None };
    let needs = known.ok_or(Misread { fault: 101, line: opened.line })?;
    let mut found = Vec::new();
    for token in &question.tokens[1..] {
        let value = number(token)?;
        if found.len() == MOST_NUMBERS {
            return Err(Misread { fault: 104, line: token.line });
        }
        found.push(value);
    }
    let last = &question.tokens[question.tokens.len() - 1];
    let line = if wrong(Fault::CountedAtTheEnd) { last.line } else { opened.line };
    match found.len().cmp(&needed(&needs, &found)) {
        std::cmp::Ordering::Less => Err(Misread { fault: 103, line }),
        std::cmp::Ordering::Greater => Err(Misread { fault: 104, line }),
        std::cmp::Ordering::Equal => Ok(found),
    }
}

// ---- answering

/// The refusal, then the fields, all 0 beside a refusal.
fn fields<const N: usize>(answer: Answer<[i64; N]>) -> String {
    let (refusal, values) = match answer {
        Ok(values) => (0, values),
        Err(refusal) => (refusal, [0; N]),
    };
    listed(refusal, &values)
}

fn listed(refusal: u8, values: &[i64]) -> String {
    let mut line = refusal.to_string();
    for value in values {
        line.push(' ');
        line.push_str(&value.to_string());
    }
    line
}

/// 0 and the run, or the refusal alone.
fn run(answer: Answer<Vec<i64>>) -> String {
    answer.map_or_else(|refusal| refusal.to_string(), |values| listed(0, &values))
}

/// The frame's digits, or the refusal alone.
fn digits(answer: Answer<String>) -> String {
    answer.unwrap_or_else(|refusal| refusal.to_string())
}

fn pairs(numbers: &[i64]) -> Vec<Band> {
    numbers.chunks(2).map(|pair| Band { threshold: pair[0], factor: pair[1] }).collect()
}

/// "A number outside 0..255 is taken as 255."
fn as_byte(x: i64) -> i64 {
    if (0..=255).contains(&x) {
        x
    } else {
        255
    }
}

fn bytes(numbers: &[i64]) -> Vec<i64> {
    numbers.iter().map(|number| as_byte(*number)).collect()
}

fn shift(numbers: &[i64], before: i64, targets: &[i64]) -> Shift {
    Shift { discharge: numbers[0], charge: numbers[1], before, targets: targets.try_into().expect("four targets") }
}

/// E, the scores that it counts, and all after them.
fn earlier(numbers: &[i64]) -> (Earlier, &[i64]) {
    let (told, rest) = numbers.split_at(list_end(numbers, 0, 1));
    (Earlier { count: told[0], scores: bytes(&told[1..]) }, rest)
}

fn rate(numbers: &[i64]) -> Answer<i64> {
    let (earlier, scores) = earlier(numbers);
    rules::rate(&earlier, &bytes(scores))
}

/// THRESHOLD, then as for a rate: reached (1 yes, 0 no), second, seconds judged, scores read.
fn reached(numbers: &[i64]) -> Answer<[i64; 4]> {
    let (earlier, scores) = earlier(&numbers[1..]);
    let threshold = if wrong(Fault::ThresholdWrapped) { numbers[0] & 255 } else { as_byte(numbers[0]) };
    let verdict = rules::reached(&earlier, &bytes(scores), threshold)?;
    Ok([verdict.reached.into(), verdict.second, verdict.judged, verdict.read])
}

/// KIND POWER COUNT: "another KIND" is no state, nor is one with "a number that a kind does not use and is not 0".
fn state(told: &[i64]) -> Option<State> {
    let unused = |number: i64| number == 0 || wrong(Fault::UnusedTaken);
    match *told {
        [0, power, count] if unused(power) && unused(count) => Some(State::Outside),
        [1, start, scored] => Some(State::Responding { start, scored }),
        [2, start, count] if unused(count) => Some(State::Holding { start }),
        [3, power, left] if unused(power) => Some(State::Recovering { left }),
        _ => None,
    }
}

/// A state's three numbers.
pub fn state_numbers(state: State) -> [i64; 3] {
    match state {
        State::Outside => [0, 0, 0],
        State::Responding { start, scored } => [1, start, scored],
        State::Holding { start } => [2, start, 0],
        State::Recovering { left } => [3, 0, left],
    }
}

/// An hour's numbers, of a question that asks for one or, with a place before them, for its frame.
fn hour(numbers: &[i64], product: Product) -> Hour {
    let head = product.head();
    let (told, rest) = numbers.split_at(list_end(numbers, head, 2));
    let (earlier, rest) = earlier(rest);
    let (begun, readings) = rest.split_at(product.state());
    let every_second = |from: usize| readings.iter().skip(from).step_by(2).copied().collect();
    let prices = product.prices_at();
    Hour {
        capacity: numbers[0],
        reference: (product != Product::Sreg).then(|| numbers[1]),
        clearing: numbers[prices],
        performance: numbers[prices + 1],
        beside: match product {
            Product::Dreg => Beside::Nothing,
            Product::Edreg => Beside::Shift(shift(&numbers[4..6], numbers[6], &numbers[7..11])),
            Product::Sreg => Beside::State(state(begun)),
        },
        bands: pairs(&told[head + 1..]),
        earlier,
        powers: every_second(0),
        frequencies: every_second(1),
    }
}

fn hour_fields(s: Settled) -> [i64; 7] {
    [s.rate, s.factor, s.capacity_fee, s.performance_fee, s.quality, s.energy, s.amount]
}

/// "What `dreg` prints and then the state's three numbers."
fn sreg_fields(s: Settled) -> [i64; 10] {
    let [kind, power, count] = state_numbers(s.state);
    let [rate, factor, capacity_fee, performance_fee, quality, energy, amount] = hour_fields(s);
    [rate, factor, capacity_fee, performance_fee, quality, energy, amount, kind, power, count]
}

fn scores(numbers: &[i64], product: Product) -> Answer<Vec<i64>> {
    Ok(rules::settle(&hour(numbers, product))?.scores)
}

fn byte(x: i64, refusal: u8) -> Answer<u8> {
    u8::try_from(x).map_err(|_| refusal)
}

/// "KIND gives refusal 13, then DAY or HOUR gives 6; otherwise the writer's refusal."
fn frame(kind: i64, day: i64, hour: i64, amount: i64) -> Answer<String> {
    write(&Frame { kind: byte(kind, 13)?, day: byte(day, 6)?, hour: byte(hour, 6)?, amount })
}

/// The frame that posts an hour's amount: "the hour's refusal first, then 6".
fn hour_frame(numbers: &[i64], product: Product) -> Answer<String> {
    let settled = rules::settle(&hour(&numbers[2..], product))?;
    frame(1, numbers[0], numbers[1], settled.amount)
}

/// The frames that set the basic and the excess fee, or the refusal alone.
fn loss_frames(charged: i64, discharged: i64, volts: i64, cost: i64) -> Answer<[String; 2]> {
    let (basic, excess) = rules::loss(charged, discharged, volts, cost)?;
    let second = if wrong(Fault::OneFeeTwice) { basic } else { excess };
    Ok([frame(4, 0, 0, basic)?, frame(6, 0, 0, second)?])
}

/// The lines of a question's answer: one, but for `loss_frames`.
fn answers(word: &[u8], n: &[i64]) -> Vec<String> {
    match word {
        b"loss_frames" => loss_frames(n[0], n[1], n[2], n[3]).map_or_else(|refusal| vec![refusal.to_string()], Vec::from),
        _ => vec![answer(word, n)],
    }
}

fn answer(word: &[u8], n: &[i64]) -> String {
    match word {
        b"kilowatts" => fields(rules::kilowatts(n[0]).map(|power| [power])),
        b"curve" => fields(rules::curve(n[0], n[1]).map(|(upper, lower)| [upper, lower])),
        b"score" => fields(rules::score(n[0], n[1], n[2], n[3], n[4]).map(|score| [score])),
        b"ramp" => run(rules::ramp(n[0], n[1])),
        b"rate" => fields(rate(n).map(|rate| [rate])),
        b"reached" => fields(reached(n)),
        b"bands" => fields(rules::bands(&pairs(n)).map(|()| [])),
        b"factor" => fields(rules::factor(&pairs(&n[1..]), as_byte(n[0])).map(|factor| [factor])),
        b"fee" => fields(rules::fee(n[0], n[1]).map(|dollars| [dollars])),
        b"quality" => fields(rules::quality(n[0], n[1], n[2]).map(|dollars| [dollars])),
        b"energy" => fields(rules::energy(&shift(n, 0, &n[2..6]), &n[6..]).map(|dollars| [dollars])),
        b"loss" => fields(rules::loss(n[0], n[1], n[2], n[3]).map(|(basic, excess)| [basic, excess, basic + excess])),
        b"dreg" => fields(rules::settle(&hour(n, Product::Dreg)).map(hour_fields)),
        b"edreg" => fields(rules::settle(&hour(n, Product::Edreg)).map(hour_fields)),
        b"sreg" => fields(rules::settle(&hour(n, Product::Sreg)).map(sreg_fields)),
        b"dreg_scores" => run(scores(n, Product::Dreg)),
        b"edreg_scores" => run(scores(n, Product::Edreg)),
        b"sreg_scores" => run(scores(n, Product::Sreg)),
        b"dreg_frame" => digits(hour_frame(n, Product::Dreg)),
        b"edreg_frame" => digits(hour_frame(n, Product::Edreg)),
        b"sreg_frame" => digits(hour_frame(n, Product::Sreg)),
        b"pair" => fields(logger::pair(n[0], n[1])),
        b"pair_frame" => digits(logger::pair_frame(n[0], n[1], n[2])),
        _ => digits(frame(n[0], n[1], n[2], n[3])),
    }
}

impl Question<'_> {
    /// The lines that desk prints for it.
    pub fn lines(&self) -> Vec<String> {
        match numbers(self) {
            Ok(numbers) => answers(self.tokens[0].bytes, &numbers),
            Err(misread) => vec![format!("line {}: {} {}", misread.line, misread.fault, fault_words(misread.fault))],
        }
    }

    /// Its tokens, for a person to read.
    pub fn shown(&self) -> String {
        let words: Vec<_> = self.tokens.iter().map(|token| String::from_utf8_lossy(token.bytes)).collect();
        words.join(" ")
    }
}
