// The peer of crates/bench for ledger calls: the same calls on a month ledger in plain Rust, as one would write it without proofs.
// Standard input is that of the Rattle program, twelve numbers; of its lines this peer prints those of its own counts.
use std::io::Read;

const PLACES: usize = 744;

const BAD_MONEY: u8 = 3;
const NOT_IN_MONTH: u8 = 6;
const PLACE_FILLED: u8 = 7;
const PLACE_EMPTY: u8 = 8;
const MONTH_CLOSED: u8 = 9;
const NOT_REACHABLE: u8 = 22;

#[derive(Clone, Copy)]
struct Month {
    days: u8,
    closed: bool,
    basic: i64,
    excess: i64,
    filled: [bool; PLACES],
    amounts: [i64; PLACES],
}

fn is_amount(amount: i64) -> bool {
    (-1_000_000_000..=1_000_000_000).contains(&amount)
}

impl Month {
    fn new(days: u8, closed: bool) -> Month {
        Month { days, closed, basic: 0, excess: 0, filled: [false; PLACES], amounts: [0; PLACES] }
    }

    // The hour's place, or the refusal of a closed month or of an hour outside it.
    fn place(&self, day: u8, hour: u8) -> Result<usize, u8> {
        if self.closed {
            return Err(MONTH_CLOSED);
        }
        if day < 1 || day > self.days || hour > 23 {
            return Err(NOT_IN_MONTH);
        }
        Ok((day as usize - 1) * 24 + hour as usize)
    }

    fn try_post(&mut self, day: u8, hour: u8, amount: i64) -> Result<(), u8> {
        let at = self.place(day, hour)?;
        if !is_amount(amount) {
            return Err(BAD_MONEY);
        }
        if self.filled[at] {
            return Err(PLACE_FILLED);
        }
        self.filled[at] = true;
        self.amounts[at] = amount;
        Ok(())
    }

    fn try_replace(&mut self, day: u8, hour: u8, amount: i64) -> Result<(), u8> {
        let at = self.place(day, hour)?;
        if !is_amount(amount) {
            return Err(BAD_MONEY);
        }
        if !self.filled[at] {
            return Err(PLACE_EMPTY);
        }
        self.amounts[at] = amount;
        Ok(())
    }

    fn try_withdraw(&mut self, day: u8, hour: u8) -> Result<(), u8> {
        let at = self.place(day, hour)?;
        if !self.filled[at] {
            return Err(PLACE_EMPTY);
        }
        self.filled[at] = false;
        self.amounts[at] = 0;
        Ok(())
    }

    fn post_in(&mut self, day: u8, hour: u8, amount: i64) -> u8 {
        self.try_post(day, hour, amount).err().unwrap_or(0)
    }

    fn replace_in(&mut self, day: u8, hour: u8, amount: i64) -> u8 {
        self.try_replace(day, hour, amount).err().unwrap_or(0)
    }

    fn withdraw_in(&mut self, day: u8, hour: u8) -> u8 {
        self.try_withdraw(day, hour).err().unwrap_or(0)
    }

    // Whether some run of calls hands this month back: what refusal 22 asks.
    fn well_formed(&self) -> bool {
        let places = self.days as usize * 24;
        (28..=31).contains(&self.days)
            && (0..=100_000_000_000).contains(&self.basic)
            && (0..=100_000_000_000).contains(&self.excess)
            && self.filled.iter().zip(&self.amounts).enumerate().all(|(p, (&filled, &amount))| {
                if filled { p < places && is_amount(amount) } else { amount == 0 }
            })
    }

    fn post(mut self, day: u8, hour: u8, amount: i64) -> (u8, Month) {
        if !self.well_formed() {
            return (NOT_REACHABLE, self);
        }
        (self.post_in(day, hour, amount), self)
    }

    fn replace(mut self, day: u8, hour: u8, amount: i64) -> (u8, Month) {
        if !self.well_formed() {
            return (NOT_REACHABLE, self);
        }
        (self.replace_in(day, hour, amount), self)
    }

    fn withdraw(mut self, day: u8, hour: u8) -> (u8, Month) {
        if !self.well_formed() {
            return (NOT_REACHABLE, self);
        }
        (self.withdraw_in(day, hour), self)
    }
}

const MODULUS: u64 = 4_294_967_296;

struct Call {
    kind: u8,
    day: u8,
    hour: u8,
    amount: i64,
}

fn next(x: u64) -> u64 {
    (x % MODULUS * 1_664_525 + 1_013_904_223) % MODULUS
}

fn by_chance(x: u64) -> Call {
    Call {
        kind: (x / 16_777_216 % 8) as u8,
        day: (x / 134_217_728 % 32) as u8,
        hour: (x / 65_536 % 256 * 25 / 256) as u8,
        amount: (x % 65_536 * 32_768) as i64 - 1_073_741_824,
    }
}

fn in_order(i: u64) -> Call {
    Call {
        kind: (i / 512 % 4 * 2) as u8,
        day: (i / 16 % 32) as u8,
        hour: (i % 16) as u8,
        amount: (i % 65_536) as i64,
    }
}

fn mixed(sum: u64, number: u64) -> u64 {
    (sum % MODULUS * 31 + number % MODULUS) % MODULUS
}

fn with_amounts(sum: u64, amounts: &[i64]) -> u64 {
    amounts.iter().fold(sum, |s, &a| mixed(mixed(s, (a < 0) as u64), a.unsigned_abs()))
}

fn in_place(mut m: Month, ordered: bool, calls: u64) -> u64 {
    let (mut x, mut sum) = (1, 0);
    for i in 0..calls {
        x = next(x);
        let call = if ordered { in_order(i) } else { by_chance(x) };
        let k = match call.kind {
            0..=2 => m.post_in(call.day, call.hour, call.amount),
            3..=4 => m.replace_in(call.day, call.hour, call.amount),
            _ => m.withdraw_in(call.day, call.hour),
        };
        sum = mixed(sum, k as u64);
    }
    with_amounts(sum, &m.amounts)
}

fn by_value(mut m: Month, calls: u64) -> u64 {
    let (mut x, mut sum) = (1, 0);
    for _ in 0..calls {
        x = next(x);
        let call = by_chance(x);
        let (k, next) = match call.kind {
            0..=2 => m.post(call.day, call.hour, call.amount),
            3..=4 => m.replace(call.day, call.hour, call.amount),
            _ => m.withdraw(call.day, call.hour),
        };
        m = next;
        sum = mixed(sum, k as u64);
    }
    with_amounts(sum, &m.amounts)
}

fn main() {
    let mut input = String::new();
    std::io::stdin().read_to_string(&mut input).expect("standard input");
    let mut numbers = input.split_whitespace().map(|n| n.parse::<u64>().expect("a number"));
    let mut number = || numbers.next().unwrap_or(0);
    let (days, closed) = ((28 + number() % 4) as u8, number() == 1);
    let (ordered, placed, valued) = (number(), number(), number());
    if ordered != 0 {
        println!("in order, in place {ordered} {}", in_place(Month::new(days, closed), true, ordered));
    }
    if placed != 0 {
        println!("by chance, in place {placed} {}", in_place(Month::new(days, closed), false, placed));
    }
    if valued != 0 {
        println!("by chance, by value {valued} {}", by_value(Month::new(days, closed), valued));
    }
}
