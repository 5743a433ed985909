//! The figures that document 01 prints ("Worked figures", "Frames"), typed off the paper, #101's frames of them, #102's
//! first windows, #103's events, #105's pair and #107's moved references: this side's rules have to give them, and the
//! programs too.

use crate::draw::Draw;
use crate::programs::Program;
use crate::questions::cut_matters;
use crate::rules::{rolling, Second};

const LIST_S: &str = "95 10 94 8 93 6 92 4 91 2 70 0 0 -10";

/// A question, and the lines that answer it, with a space between two.
fn lines() -> Vec<(String, &'static str)> {
    let charging: Vec<_> = [-3000, -2900, 100, -3200].iter().map(|mean| format!(" {mean}").repeat(900)).collect();
    vec![
        ("curve 59900 60000".into(), "0 38 32"),
        ("curve 59920 60000".into(), "0 31 22"),
        ("curve 60080 60000".into(), "0 -22 -31"),
        ("curve 59980 60000".into(), "0 9 -9"),
        ("curve 59750 60000".into(), "0 100 100"),
        ("score 43 0 100 59900 60000".into(), "0 95"),
        ("score 35 0 100 59900 60000".into(), "0 100"),
        ("score 43 0 100 60200 60300".into(), "0 95"),
        ("score 43 0 100 59400 59500".into(), "0 95"),
        ("score 43 0 100 59900 60501".into(), "19 0"),
        ("score 43 0 0 59900 60501".into(), "2 0"),
        ("score 43 100001 100 59900 60501".into(), "19 0"),
        ("curve 59250 59500".into(), "0 100 100"),
        ("curve 60160 60300".into(), "0 52 52"),
        ("curve 60750 60500".into(), "0 -100 -100"),
        ("curve 54999 59499".into(), "19 0 0"),
        ("curve 54999 59500".into(), "4 0 0"),
        (format!("factor 94 {LIST_S}"), "0 8"),
        ("quality 4350 3500 8".into(), "0 6280"),
        (format!("factor 69 {LIST_S}"), "0 -10"),
        ("quality 4400 3500 -10".into(), "0 -7900"),
        (format!("energy 0 50000 -1 -1 -1 -1{}", charging.concat()), "0 1125"),
        ("loss 120000 84000 22800 40000".into(), "0 151200 100800 252000"),
        ("loss 120000 96000 22800 40000".into(), "0 100800 0 100800"),
        ("fee 44300 10000".into(), "0 4430"),
        ("fee 1 100000".into(), "0 1"),
        ("fee 1 100001".into(), "2 0"),
        ("frame 0 31 0 0".into(), "001F0000000000000000001F"),
        ("frame 1 3 10 7800".into(), "01030A0000000000001E78A4"),
        ("frame 4 0 0 8658".into(), "04000000000000000021D2F7"),
        ("frame 6 0 0 8658".into(), "06000000000000000021D2F9"),
        ("loss_frames 120000 84000 22800 40000".into(), "0400000000000000024EA0F4 06000000000000000189C050"),
        ("loss_frames 120000 84000 11399 1000001".into(), "3"),
        (scores("0", "0"), "0 0"),
        (scores("3 100 100 100", "0"), "0 100"),
        (scores("3 90 0 0", "0"), "0 90"),
        (scores("3 90 0 0", "0 0"), "0 0"),
        (scores("3 0 0 90", "0 0 0"), "0 90"),
        (scores("3 0 0 90", "0 0 0 0"), "0 0"),
        (scores("2 100 100", "0"), "1 0"),
        (scores("3 101 0 0", "0"), "4 0"),
        (idle(0, "3 101 0 0"), "2 0 0 0 0 0 0 0"),
        (idle(0, "2 101 0"), "1 0 0 0 0 0 0 0"),
        (idle(1, "3 101 0 0"), "4 0 0 0 0 0 0 0"),
        (idle(1, "3 0 0 0"), "0 100 10 0 0 0 0 0"),
        (reached("95 0", "100"), "0 1 0 3600 3600"),
        (reached("95 0", "100 0 0 0"), "0 1 0 3600 3606"),
        (reached("95 0", "100 0 0 0 0"), "0 0 5 5 14"),
        (reached("0 0", "0 0 0 0 0 0 0 0"), "0 1 0 3600 3600"),
        (reached("101 0", "101"), "4 0 0 0 0"),
        (reached("101 0", "100"), "5 0 0 0 0"),
        (reached("101 2 0 101", "101"), "1 0 0 0 0"),
        ("pair 1114636288 1120403456".into(), "0 60000 100"),
        ("pair_frame 1 1114636288 1120403456".into(), "1000014270000042C80000CD"),
    ]
}

/// A question about an hour of scores: what stands before them, some scores, then 100 in every second.
fn scored(word: &str, before: &str, first: &str) -> String {
    format!("{word} {before} {first}{}", " 100".repeat(3600 - first.split(' ').count()))
}

/// An hour's rate after earlier scores.
fn scores(earlier: &str, first: &str) -> String {
    scored("rate", earlier, first)
}

/// Whether an hour reached a threshold (#106), which stands before the earlier scores.
fn reached(before: &str, first: &str) -> String {
    scored("reached", before, first)
}

/// A dReg hour at 60 Hz in which nothing is given or taken.
fn idle(capacity: i64, earlier: &str) -> String {
    format!("dreg {capacity} 60000 0 0 7 {LIST_S} {earlier}{}", " 0 60000".repeat(3600))
}

// ---- sReg hours (#103)

/// Document 001's table 2: what was given, in kW, from the eleventh second of an event to its last.
const TABLE_2: [i64; 11] = [10_000, 9_000, 5_000, 9_000, 9_000, 7_000, 9_500, 10_000, 11_000, 6_000, 10_000];

/// An hour of 10 MW at 430 and 350 dollars with list S, after E with its scores and a state: 10 MW are taken at 60 Hz,
/// but for the seconds from this one on.
fn laid(word: &str, before: &str, from: usize, seconds: &[Second]) -> String {
    let second = |at: usize| at.checked_sub(from).and_then(|at| seconds.get(at)).unwrap_or(&(10_000, 60_000));
    let readings = (1..=3600).map(second).map(|(power, frequency)| format!(" {power} {frequency}"));
    format!("{word} 10000 43000 35000 7 {LIST_S} {before}{}", readings.collect::<String>())
}

/// An event that has its start power for ten seconds, so much less from the eleventh on, the last of these at 59,980;
/// nothing is taken in the ten seconds after it.
fn event(start: i64, given: &[i64]) -> Vec<Second> {
    let mut seconds = vec![(start, 59_880)];
    seconds.extend([(start, 59_900); 9]);
    seconds.extend(given.iter().map(|power| (start - power, 59_979)));
    seconds.last_mut().expect("there are seconds").1 = 59_980;
    seconds.extend([(0, 60_000); 10]);
    seconds
}

/// An event from 9 MW that reaches 59,980 in this second of its own, counted from 1; after its first it takes 4 MW.
fn back_in(second: usize) -> Vec<Second> {
    let mut seconds = vec![(9_000, 59_880)];
    seconds.extend(vec![(4_000, 59_881); second - 2]);
    seconds.extend([(4_000, 59_980); 22]);
    seconds
}

/// An event from 9 MW that is over in its second one, and one from 6 MW that starts so many seconds later; between them
/// 4 MW are taken, after the second start 1 MW.
fn fall_after(seconds: usize) -> Vec<Second> {
    let mut list = vec![(9_000, 59_880), (4_000, 59_980)];
    list.extend(vec![(4_000, 59_881); seconds - 1]);
    list.push((6_000, 59_880));
    list.extend([(1_000, 59_979); 11]);
    list
}

const NO_HOUR_BEFORE: &str = "0 0 0 0";
const REFUSED_4: &str = "4 0 0 0 0 0 0 0 0 0 0";

/// Hours, and what is printed for them.
fn sreg_hours() -> Vec<(String, &'static str)> {
    let on_to_the_end = |from: usize| event(9_000, &[10_000; 30])[..3601 - from].to_vec();
    let hour = |seconds: Vec<Second>, from: usize| laid("sreg", NO_HOUR_BEFORE, from, &seconds);
    let idle = |word: &str, before: &str| laid(word, before, 1, &[]);
    vec![
        (hour(event(10_000, &TABLE_2), 730), "0 90 0 4300 3500 0 0 0 0 0 0"),
        // its last second scores 85, those before it 80
        (hour(event(10_000, &[8_000, 8_000, 8_000, 8_500]), 730), "0 85 0 4300 3500 0 0 0 0 0 0"),
        (hour(on_to_the_end(3600), 3600), "0 100 10 4300 3500 7800 0 7800 1 9000 1"),
        (hour(on_to_the_end(3595), 3595), "0 100 10 4300 3500 7800 0 7800 1 9000 6"),
        (hour(on_to_the_end(3592), 3592), "0 100 10 4300 3500 7800 0 7800 1 9000 9"),
        (hour(on_to_the_end(3591), 3591), "0 100 10 4300 3500 7800 0 7800 2 9000 0"),
        (hour(event(9_000, &[10_000]), 3590), "0 100 10 4300 3500 7800 0 7800 3 0 10"),
        (hour(event(9_000, &[10_000]), 3581), "0 100 10 4300 3500 7800 0 7800 3 0 1"),
        (hour(event(9_000, &[10_000]), 3580), "0 100 10 4300 3500 7800 0 7800 0 0 0"),
        (idle("sreg_frame 12 14", NO_HOUR_BEFORE), "010C0E0000000000001E78B1"),
        (idle("sreg", "0 1 -200000 9"), "0 100 10 4300 3500 7800 0 7800 0 0 0"),
        (idle("sreg", "0 2 -200000 0"), "0 0 -10 4300 3500 -7800 0 -7800 0 0 0"),
        (idle("sreg", "0 1 0 0"), REFUSED_4),
        (idle("sreg", "0 1 0 10"), REFUSED_4),
        (idle("sreg", "0 1 200001 1"), REFUSED_4),
        (idle("sreg", "0 3 0 11"), REFUSED_4),
        (idle("sreg", "0 0 1 0"), REFUSED_4),
        (idle("sreg", "0 2 0 1"), REFUSED_4),
        (idle("sreg", "0 4 0 0"), REFUSED_4),
        (idle("sreg", "2 101 0 4 0 0"), "1 0 0 0 0 0 0 0 0 0 0"),
        (idle("sreg_scores", "0 4 0 0"), "4"),
        (idle("sreg_frame 300 14", "0 4 0 0"), "4"),
    ]
}

/// Hours, and from a second on some of their scores.
fn sreg_scores() -> Vec<(String, usize, String)> {
    let full = |seconds: usize| "100 ".repeat(seconds);
    let hour = |seconds: Vec<Second>, from: usize| laid("sreg_scores", NO_HOUR_BEFORE, from, &seconds);
    let handed = |before: &str, over: usize| laid("sreg_scores", before, 1, &event(10_000, &TABLE_2)[over..]);
    let table_2 = "100 90 50 90 90 70 95 100 100 60 100 ";
    vec![
        (hour(event(10_000, &TABLE_2), 730), 730, format!("{}{table_2}{}100", full(10), full(10))),
        (hour(event(10_000, &[9_000, 8_500]), 730), 740, format!("90 85 {}100", full(10))),
        (hour(back_in(2), 730), 730, format!("{}40", full(12))),
        (hour(back_in(10), 730), 730, format!("{}40", full(20))),
        (hour(back_in(11), 730), 730, format!("{}50 {}40", full(10), full(10))),
        (hour(fall_after(10), 730), 730, format!("{}50 50", full(21))),
        (hour(fall_after(11), 730), 730, format!("{}50 50", full(22))),
        (hour(fall_after(12), 730), 730, format!("{}40 {}50 50", full(12), full(10))),
        // the rest of table 2's event, handed on after six seconds and after twenty; one left of the ten after it
        (handed("3 100 100 100 1 10000 6", 6), 1, format!("{}{table_2}{}100", full(4), full(10))),
        (handed("3 100 100 60 2 10000 0", 20), 1, format!("100 {}100", full(10))),
        (handed("3 100 100 100 3 0 1", 30), 1, "100 100".into()),
        (laid("sreg_scores", "0 3 0 1", 1, &[(4_000, 60_000); 2]), 1, "100 40 100".into()),
    ]
}

// ---- ramps, rates and frames

/// A ramp, its second, and the power then.
const RAMPS: [(&str, usize, &str); 5] = [
    ("ramp 0 5000", 1, "17"),
    ("ramp 0 5000", 3, "50"),
    ("ramp 0 5000", 299, "4984"),
    ("ramp 0 -8000", 1, "-27"),
    ("ramp 20000 10000", 298, "10066"),
];

const SCORES: [i64; 11] = [100, 90, 50, 90, 90, 70, 95, 100, 100, 60, 100];
const ROLLING: [i64; 11] = [100, 100, 100, 100, 90, 90, 95, 100, 100, 100, 100];

const FRAMES: &str = "001F0000000000000000001F\n01030A0000000000001E78A4\n01030A0000000000001888AE\n04000000000000000021D2F7\n";
const VERDICTS: [&str; 5] = ["1 0", "2 0", "3 7", "4 0", "total -858"];

/// Document 01's loss example in a month of one hour of 300,000 dollars: a basic fee set twice, an excess fee once.
const FEES: &str = concat!(
    "001F0000000000000000001F\n",
    "01010000000000000493E079\n",
    "040000000000000000000105\n",
    "0400000000000000024EA0F4\n",
    "06000000000000000189C050\n",
);
const PIPED_FEES: &str = "frame 0 31 0 0\nframe 1 1 0 300000\nframe 4 0 0 1\nloss_frames 120000 84000 22800 40000\n";
const FEE_VERDICTS: [&str; 6] = ["1 0", "2 0", "3 0", "4 0", "5 0", "total 48000"];

/// What the paper's figures ask of desk.
pub fn questions(_: &mut Draw) -> String {
    let asked = lines().into_iter().chain(sreg_hours()).map(|(question, _)| question);
    let scores = sreg_scores().into_iter().map(|(question, _, _)| question);
    let ramps = RAMPS.map(|(question, _, _)| question.to_string());
    asked.chain(scores).chain(ramps).map(|question| question + "\n").collect()
}

/// The lines that the paper gives `ledger`.
pub fn frames(_: &mut Draw) -> Vec<u8> {
    FRAMES.into()
}

/// #101's.
pub fn fees(_: &mut Draw) -> Vec<u8> {
    FEES.into()
}

/// The same month asked of desk: what it prints goes into `ledger`.
pub fn piped_fees(_: &mut Draw) -> String {
    PIPED_FEES.into()
}

fn answer(question: &str) -> String {
    Program::Desk.expected(question.as_bytes()).join(" ")
}

fn rates(earlier: &[i64], scores: &[i64]) -> Vec<i64> {
    (1..=scores.len() as i64).map(|second| rolling(earlier, scores, second)).collect()
}

/// The first figure of the paper that this side's rules do not give.
pub fn missed() -> Option<String> {
    let line = lines().into_iter().chain(sreg_hours()).find(|(question, printed)| answer(question) != *printed);
    let scored = sreg_scores().into_iter().find(|(question, second, printed)| {
        let scores = answer(question);
        let some: Vec<_> = scores.split(' ').skip(*second).take(printed.split(' ').count()).collect();
        some.join(" ") != *printed
    });
    let ramp = RAMPS.into_iter().find(|(question, second, printed)| answer(question).split(' ').nth(*second) != Some(printed));
    let missed = [
        line.map(|(question, _)| question),
        ramp.map(|(question, _, _)| question.to_string()),
        scored.map(|(question, second, printed)| format!("{printed} from second {second} on: {question}")),
        // the hours that the part "sreg handed on" asks for first
        cut_matters(&mut Draw::new(1, "sreg handed on", 0)).then(|| "two hours as one run of 7,200 seconds".into()),
        (rates(&[], &SCORES) != ROLLING).then(|| "the rolling rates".to_string()),
        (rates(&SCORES[..3], &SCORES[3..]) != ROLLING[3..]).then(|| "the rolling rates after three seconds".to_string()),
        (Program::Ledger.expected(FRAMES.as_bytes()) != VERDICTS).then(|| "the ledger's sample".to_string()),
        (Program::Ledger.expected(FEES.as_bytes()) != FEE_VERDICTS).then(|| "the two loss fees".to_string()),
        (Program::Desk.expected(PIPED_FEES.as_bytes()).join("\n") + "\n" != FEES).then(|| "the frames of the two loss fees".to_string()),
    ];
    missed.into_iter().flatten().next()
}
