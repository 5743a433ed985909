//! Lines expected beside lines printed: what is counted, and what is shown of a difference.

use crate::programs::Program;

const SHOWN: usize = 10;
const WIDTH: usize = 160;

#[derive(Default)]
pub struct Tally {
    pub runs: usize,
    /// Printed lines.
    pub cases: usize,
    pub answers: usize,
    pub differences: usize,
    /// The first differences, in words.
    pub shown: Vec<String>,
    /// Whether a program did not end as it should: then nothing more is run.
    pub broken: bool,
}

impl Tally {
    pub fn add(&mut self, other: Tally) {
        self.runs += other.runs;
        self.cases += other.cases;
        self.answers += other.answers;
        self.differences += other.differences;
        self.shown.extend(other.shown);
        self.shown.truncate(SHOWN);
        self.broken |= other.broken;
    }

    pub fn of_broken(why: String) -> Tally {
        Tally { runs: 1, differences: 1, shown: vec![why], broken: true, ..Tally::default() }
    }
}

fn cut(text: &str) -> String {
    let shown: String = text.chars().take(WIDTH).collect();
    if shown.len() < text.len() {
        format!("{shown} ..")
    } else {
        shown
    }
}

/// How many of a line's answers differ.
fn differing(program: Program, expected: &str, came: &str) -> usize {
    if expected == came {
        return 0;
    }
    if program.answers(expected) == 1 {
        return 1;
    }
    let (expected, came): (Vec<_>, Vec<_>) = (expected.split(' ').collect(), came.split(' ').collect());
    (0..expected.len()).filter(|at| expected.get(*at) != came.get(*at)).count().max(1)
}

/// From where two lines differ, a little before it: a line of 3,600 scores is long.
fn from_difference<'a>(expected: &str, came: &str, line: &'a str) -> (usize, &'a str) {
    let fields = expected.split(' ').zip(came.split(' ')).take_while(|(a, b)| a == b).count();
    let skipped: usize = line.split(' ').take(fields).map(|field| field.len() + 1).sum();
    (fields + 1, line.get(skipped..).unwrap_or(""))
}

fn in_words(program: Program, input: &[u8], at: usize, expected: &str, came: &str, kept: &str) -> String {
    let asked = cut(&program.asked(input, at));
    let head = format!("{} was asked (line {} of what it prints for {kept}): {asked:?}", program.name(), at + 1);
    if expected.len() <= WIDTH && came.len() <= WIDTH {
        return format!("{head}\n    expected: {expected}\n    came:     {came}");
    }
    let (field, rest) = from_difference(expected, came, expected);
    let (_, rest_came) = from_difference(expected, came, came);
    format!("{head}\n    from field {field} on, expected: {}\n    came: {}", cut(rest), cut(rest_came))
}

/// Compares what was printed with what was expected, line by line. `kept` names the file that keeps the input.
pub fn compare(program: Program, input: &[u8], expected: &[String], printed: &[u8], kept: &str) -> Tally {
    let printed = String::from_utf8_lossy(printed);
    let mut lines = printed.split_terminator('\n');
    let mut tally = Tally { runs: 1, cases: expected.len(), ..Tally::default() };
    for (at, line) in expected.iter().enumerate() {
        let came = lines.next().unwrap_or("nothing");
        let differences = differing(program, line, came);
        tally.answers += program.answers(line);
        tally.differences += differences;
        if differences > 0 && tally.shown.len() < SHOWN {
            tally.shown.push(in_words(program, input, at, line, came, kept));
        }
    }
    let more = lines.count() + usize::from(!printed.is_empty() && !printed.ends_with('\n'));
    if more > 0 {
        tally.differences += more;
        tally.shown.push(format!("{} printed more than was expected, or no line end at the end ({kept})", program.name()));
    }
    tally
}
