//! Document 01's frames, ledger and program, with document 02's #101, from the papers alone. The ledger keeps no places: it is the list of
//! accepted calls, and every refusal and the total are worked out from that list.

use crate::faults::{wrong, Fault};
use crate::rules::{first_refused, Answer, Limits};

pub const DAYS: Limits = Limits(28, 31);
pub const AMOUNT: Limits = Limits(-1_000_000_000, 1_000_000_000);
pub const LOSS_FEE: Limits = Limits(0, 100_000_000_000);
const LAST_HOUR: u8 = 23;
const MOST_LINES: usize = 1_000_000;

// ---- "Frames"

#[derive(Clone, Copy)]
pub struct Frame {
    pub kind: u8,
    pub day: u8,
    pub hour: u8,
    pub amount: i64,
}

/// "Fields a kind doesn't use are zero."
fn kind_fits(frame: &Frame) -> bool {
    let (day, hour, amount) = (frame.day == 0, frame.hour == 0, frame.amount == 0);
    match frame.kind {
        0 => hour && amount,
        1 | 2 => true,
        3 => amount,
        4 | 6 => day && hour || wrong(Fault::HourOfSix) && frame.kind == 6 && day,
        5 => day && hour && amount,
        0x10 => wrong(Fault::PairCloses),
        _ => false,
    }
}

/// "The sum of the first eleven bytes modulo 256."
pub fn sum_of(bytes: &[u8]) -> u8 {
    bytes.iter().fold(0, |sum, byte| sum.wrapping_add(*byte))
}

/// The digits of eleven bytes and of their sum.
pub fn line_of(said: &[u8]) -> String {
    said.iter().chain([&sum_of(said)]).map(|byte| format!("{byte:02X}")).collect()
}

/// The 24 digits, whatever the fields hold.
pub fn digits(frame: &Frame) -> String {
    let mut bytes = vec![frame.kind, frame.day, frame.hour];
    bytes.extend(frame.amount.to_be_bytes());
    line_of(&bytes)
}

/// A frame's line as it is written: its digits, unless a fault has them wrong.
pub fn written(line: String) -> String {
    if wrong(Fault::LowerCaseWritten) {
        return line.to_ascii_lowercase();
    }
    if wrong(Fault::TenAfterNine) {
        return line.replace('A', ":");
    }
    line
}

/// The writer: 1 is for its lent run, which desk always lends in its length.
pub fn write(frame: &Frame) -> Answer<String> {
    first_refused(&[13], &[(13, !kind_fits(frame))])?;
    Ok(written(digits(frame)))
}

/// "0-9 A-F": the library takes a-f too.
fn digit(byte: u8) -> Option<u128> {
    let value = char::from(byte).to_digit(16)?;
    (!byte.is_ascii_lowercase() || wrong(Fault::LowerCaseRead)).then_some(value.into())
}

/// A line's twelve bytes: "1, 11".
pub fn bytes(line: &[u8]) -> Answer<[u8; 12]> {
    first_refused(&[1], &[(1, line.len() != 24)])?;
    let number = line.iter().try_fold(0, |sofar: u128, byte| Some(sofar * 16 + digit(*byte)?)).ok_or(11)?;
    Ok(number.to_be_bytes()[4..].try_into().expect("twelve bytes"))
}

/// The reader: "1, 11, 12, 13".
pub fn read(line: &[u8]) -> Answer<Frame> {
    let bytes = bytes(line)?;
    let (said, sum) = (&bytes[..11], bytes[11]);
    let amount = i64::from_be_bytes(said[3..].try_into().expect("eight bytes"));
    let frame = Frame { kind: said[0], day: said[1], hour: said[2], amount };
    let order = if wrong(Fault::KindBeforeSum) { [13, 12] } else { [12, 13] };
    first_refused(&order, &[(12, sum_of(said) != sum), (13, !kind_fits(&frame))])?;
    Ok(frame)
}

// ---- "The ledger"

#[derive(Clone, Copy, PartialEq)]
struct Place {
    day: u8,
    hour: u8,
}

/// #101: each loss fee "has its own last accepted value".
#[derive(Clone, Copy, PartialEq)]
enum Fee {
    Basic,
    Excess,
}

/// A call that may change a month.
#[derive(Clone, Copy)]
enum Call {
    Post(Place, i64),
    Replace(Place, i64),
    Withdraw(Place),
    LossFee(Fee, i64),
    Close,
}

/// A month: its days, and its accepted calls from the first to the last.
struct Month {
    days: u8,
    accepted: Vec<Call>,
}

impl Month {
    /// What stands at a place is what the last accepted call on it left there.
    fn standing(&self, place: Place) -> Option<i64> {
        let left = |call: &Call| match *call {
            Call::Post(at, amount) | Call::Replace(at, amount) if at == place => Some(Some(amount)),
            Call::Withdraw(at) if at == place => Some(None),
            _ => None,
        };
        self.accepted.iter().rev().find_map(left).flatten()
    }

    /// A fee's last accepted value, "zero if never set".
    fn last(&self, fee: Fee) -> i64 {
        let set = |call: &Call| match *call {
            Call::LossFee(which, dollars) if which == fee || wrong(Fault::OneLossFee) => Some(dollars),
            _ => None,
        };
        self.accepted.iter().rev().find_map(set).unwrap_or(0)
    }

    /// Nothing is accepted after a close.
    fn closed(&self) -> bool {
        matches!(self.accepted.last(), Some(Call::Close))
    }

    fn has(&self, place: Place) -> bool {
        1 <= place.day && place.day <= self.days && place.hour <= LAST_HOUR
    }

    /// "Ledger: 22, 9, 6, 3, then 7 or 8." No call of the program meets 22.
    fn refused(&self, call: &Call) -> Answer<()> {
        let (place, amount, needs_empty) = match *call {
            Call::Post(place, amount) => (Some(place), AMOUNT.hold(amount), true),
            Call::Replace(place, amount) => (Some(place), AMOUNT.hold(amount), false),
            Call::Withdraw(place) => (Some(place), true, false),
            Call::LossFee(_, dollars) => (None, LOSS_FEE.hold(dollars), false),
            Call::Close => (None, true, false),
        };
        let filled = place.is_some_and(|place| self.standing(place).is_some());
        let closed = self.closed() && !(wrong(Fault::FeeAfterClose) && matches!(call, Call::LossFee(..)));
        let (seven, eight) = if wrong(Fault::SevenAndEight) { (8, 7) } else { (7, 8) };
        let holding = [
            (9, closed),
            (6, place.is_some_and(|place| !self.has(place))),
            (3, !amount),
            (seven, place.is_some() && needs_empty && filled && !wrong(Fault::SecondPost)),
            (eight, place.is_some() && !needs_empty && !filled),
        ];
        first_refused(&[9, 6, 3, 7, 8], &holding)
    }

    fn take(&mut self, call: Call) -> Answer<()> {
        self.refused(&call)?;
        self.accepted.push(call);
        Ok(())
    }

    /// The month total: what stands at every place, less both loss fees.
    fn total(&self) -> i64 {
        let places = (1..=self.days).flat_map(|day| (0..=LAST_HOUR).map(move |hour| Place { day, hour }));
        let hours: i64 = places.filter_map(|place| self.standing(place)).sum();
        let excess = if wrong(Fault::ExcessNotTaken) { 0 } else { self.last(Fee::Excess) };
        hours + self.withdrawn() - self.last(Fee::Basic) - excess
    }

    /// What the fault "withdrawal-forgotten" adds to the total.
    fn withdrawn(&self) -> i64 {
        let last_taken = self.accepted.iter().rposition(|call| matches!(call, Call::Withdraw(_)));
        let (true, Some(at)) = (wrong(Fault::WithdrawalForgotten), last_taken) else { return 0 };
        let Call::Withdraw(place) = self.accepted[at] else { return 0 };
        let before = Month { days: self.days, accepted: self.accepted[..at].to_vec() };
        before.standing(place).unwrap_or(0)
    }
}

// ---- "The program `ledger`"

fn call_of(frame: &Frame) -> Call {
    let place = Place { day: frame.day, hour: frame.hour };
    match frame.kind {
        1 => Call::Post(place, frame.amount),
        2 => Call::Replace(place, frame.amount),
        3 => Call::Withdraw(place),
        4 => Call::LossFee(Fee::Basic, frame.amount),
        6 => Call::LossFee(Fee::Excess, frame.amount),
        _ => Call::Close,
    }
}

/// "Program: reader, 14, ledger."
fn take_line(month: &mut Option<Month>, line: &[u8]) -> Answer<()> {
    let frame = read(line)?;
    match (frame.kind, month.as_mut()) {
        (0, None) => {
            first_refused(&[6], &[(6, !DAYS.hold(frame.day.into()))])?;
            *month = Some(Month { days: frame.day, accepted: Vec::new() });
            Ok(())
        }
        (0, Some(_)) | (_, None) => Err(14),
        (_, Some(open)) => open.take(call_of(&frame)),
    }
}

/// "A line end is the byte 0A; a last line without one counts if it has a byte. It reads at most 1,000,000 lines."
pub fn lines(input: &[u8]) -> impl Iterator<Item = &[u8]> {
    let ended = input.strip_suffix(b"\n").unwrap_or(input);
    let any = if input.is_empty() { 0 } else { MOST_LINES };
    ended.split(|byte| *byte == b'\n').take(any)
}

/// What the program prints for an input, line by line.
pub fn transcript(input: &[u8]) -> Vec<String> {
    let mut month = None;
    let mut printed = Vec::new();
    for (at, line) in lines(input).enumerate() {
        let refusal = take_line(&mut month, line).err().unwrap_or(0);
        printed.push(format!("{} {refusal}", at + 1));
    }
    printed.push(format!("total {}", month.map_or(0, |month| month.total())));
    printed
}
