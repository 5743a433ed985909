//! What `ledger` is fed: one function a part, each writing the lines of one run.

use crate::draw::{edges, Draw};
use crate::month::{digits, Frame, AMOUNT, LOSS_FEE};

pub type Text = Vec<u8>;

pub fn put(text: &mut Text, line: &[u8]) {
    text.extend(line);
    text.push(b'\n');
}

pub fn put_frame(text: &mut Text, kind: u8, day: u8, hour: u8, amount: i64) {
    put(text, digits(&Frame { kind, day, hour, amount }).as_bytes());
}

pub fn open(text: &mut Text, days: u8) {
    put_frame(text, 0, days, 0, 0);
}

// ---- frames drawn

/// The part of the month that a run works on: small ones meet filled and empty places often.
struct Region {
    days: i64,
    hours: i64,
}

fn region(draw: &mut Draw) -> Region {
    match draw.below(4) {
        0 => Region { days: 31, hours: 23 },
        1 => Region { days: 31, hours: 0 },
        _ => Region { days: draw.between(1, 4), hours: draw.between(0, 5) },
    }
}

fn call(draw: &mut Draw, region: &Region) -> Frame {
    let kind = draw.of(&[1, 1, 1, 1, 2, 2, 3, 3, 3, 4, 6]);
    let (mut day, mut hour) = (draw.between(1, region.days) as u8, draw.between(0, region.hours) as u8);
    let fee = kind == 4 || kind == 6;
    let mut amount = draw.any(if fee { LOSS_FEE } else { AMOUNT });
    if draw.one_in(20) {
        (day, hour) = (draw.of(&[0, 1, 28, 29, 30, 31, 32, 255]), draw.of(&[0, 23, 24, 255]));
    }
    if kind == 3 {
        amount = 0;
    }
    if fee {
        (day, hour) = (0, 0);
    }
    Frame { kind, day, hour, amount }
}

/// A frame of any fields, fit or not.
fn any_frame(draw: &mut Draw) -> Frame {
    let field = |draw: &mut Draw| if draw.one_in(2) { 0 } else { draw.next() as u8 };
    let kind = if draw.one_in(4) { draw.next() as u8 } else { draw.below(8) as u8 };
    let (day, hour) = (field(draw), field(draw));
    let amount = if draw.one_in(2) { 0 } else { draw.any(AMOUNT) };
    Frame { kind, day, hour, amount }
}

/// A byte that is no digit of a frame, or is one; never a line end.
fn some_byte(draw: &mut Draw) -> u8 {
    let byte = if draw.one_in(2) { draw.of(b"/:@G`gafAF \r\0\t\xff-") } else { draw.next() as u8 };
    if byte == b'\n' {
        b'x'
    } else {
        byte
    }
}

pub fn damage(draw: &mut Draw, line: &mut Text) {
    let at = draw.below(line.len().max(1));
    match draw.below(7) {
        0 => drop(line.pop()),
        1 => line.push(some_byte(draw)),
        2 => line.truncate(at),
        3 => line.make_ascii_lowercase(),
        4 if !line.is_empty() => line[at] = some_byte(draw),
        5 if !line.is_empty() => line[at] = format!("{:X}", draw.below(16)).as_bytes()[0],
        _ => line.push(b'\r'),
    }
}

/// A line: a frame's digits, now and then damaged once or more.
fn put_line(draw: &mut Draw, text: &mut Text, frame: &Frame) {
    let mut line = digits(frame).into_bytes();
    if draw.one_in(12) {
        for _ in 0..=draw.below(3) {
            damage(draw, &mut line);
        }
    }
    put(text, &line);
}

// ---- the parts

/// A frame with every byte in every place, and of every length to twice its own: before a month is open, and in one.
pub fn reader(draw: &mut Draw) -> Text {
    let mut text = Text::new();
    let fit = digits(&call(draw, &Region { days: 28, hours: 23 })).into_bytes();
    for opened in [false, true] {
        if opened {
            open(&mut text, 28);
        }
        for at in 0..fit.len() {
            for byte in (0..=255).filter(|byte| *byte != b'\n') {
                let mut line = fit.clone();
                line[at] = byte;
                put(&mut text, &line);
            }
        }
        for length in 0..=2 * fit.len() {
            let line: Text = fit.iter().cycle().take(length).copied().collect();
            put(&mut text, &line);
        }
        for _ in 0..1000 {
            let frame = any_frame(draw);
            put_line(draw, &mut text, &frame);
        }
    }
    text
}

/// Every kind, day, hour and amount at the limits, in a month of each length and in one that is closed.
pub fn limits(_: &mut Draw) -> Text {
    let mut text = Text::new();
    for days in [0, 27, 32, 255, 28] {
        open(&mut text, days);
    }
    for closed in [false, true] {
        if closed {
            put_frame(&mut text, 5, 0, 0, 0);
        }
        at_limits(&mut text);
    }
    text
}

pub fn month_limits(draw: &mut Draw) -> Text {
    let mut text = Text::new();
    open(&mut text, draw.between(28, 31) as u8);
    at_limits(&mut text);
    text
}

fn at_limits(text: &mut Text) {
    let amounts = [edges(AMOUNT), edges(LOSS_FEE)].concat();
    for kind in [1, 2, 3, 4, 0, 6, 7, 16, 128, 255] {
        for day in [0, 1, 28, 29, 30, 31, 32, 255] {
            for hour in [0, 23, 24, 255] {
                put_frame(text, kind, day, hour, 0);
            }
        }
        for amount in &amounts {
            put_frame(text, kind, 1, 1, *amount);
            put_frame(text, kind, 0, 0, *amount);
        }
    }
}

/// A month's life: some lines before it is open, many calls, perhaps a close, some more.
pub fn life(draw: &mut Draw) -> Text {
    let mut text = Text::new();
    let region = region(draw);
    for _ in 0..draw.below(4) {
        let early = if draw.one_in(2) { call(draw, &region) } else { any_frame(draw) };
        put_line(draw, &mut text, &early);
    }
    open(&mut text, draw.between(28, 31) as u8);
    let calls = draw.of(&[50, 300, 1500]);
    for _ in 0..calls {
        let frame = if draw.one_in(40) { any_frame(draw) } else { call(draw, &region) };
        put_line(draw, &mut text, &frame);
    }
    if draw.one_in(2) {
        put_frame(&mut text, 5, 0, 0, 0);
        for _ in 0..40 {
            let late = if draw.one_in(4) { Frame { kind: 5, day: 0, hour: 0, amount: 0 } } else { call(draw, &region) };
            put_line(draw, &mut text, &late);
        }
    }
    text
}

/// A long life in one region.
pub fn long_life(draw: &mut Draw) -> Text {
    let mut text = Text::new();
    let region = region(draw);
    open(&mut text, 31);
    for _ in 0..20_000 {
        let frame = call(draw, &region);
        put_line(draw, &mut text, &frame);
    }
    text
}

/// Line ends: none at the end, several, none at all; long lines; nothing.
pub fn line_ends(draw: &mut Draw) -> Text {
    let mut text = Text::new();
    for _ in 0..draw.below(6) {
        match draw.below(5) {
            0 => text.push(b'\n'),
            1 => put(&mut text, &vec![some_byte(draw); draw.between(25, 300_000) as usize]),
            2 => open(&mut text, 30),
            _ => {
                let frame = call(draw, &Region { days: 2, hours: 1 });
                put_line(draw, &mut text, &frame);
            }
        }
    }
    if draw.one_in(2) {
        text.pop();
    }
    text
}

/// "It reads at most 1,000,000 lines and ignores the rest": posts around the last one that counts.
pub fn million(_: &mut Draw) -> Text {
    let mut text = Text::new();
    open(&mut text, 31);
    text.extend(vec![b'\n'; 999_997]);
    for hour in 0..4 {
        put_frame(&mut text, 1, 1, hour, 1 << (8 * hour));
    }
    text
}
