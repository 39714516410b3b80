//! Degrees and minutes: the calls of DmAdd and DmSub, on two angles with one byte 32 between them.

/// What a call does with its two angles.
#[derive(Clone, Copy, PartialEq, Eq, Debug)]
pub enum Operation {
    Plus,
    Minus,
}

/// Why a call has no result, as the answer of the run that it stops.
pub const NOT_ANGLES: u64 = 20;
pub const OUT_OF_RANGE: u64 = 21;

const MOST_DEGREES: i32 = 359;
const MINUTES: i32 = 60;
/// 359:59 in minutes.
pub const MOST: i32 = MOST_DEGREES * MINUTES + 59;

impl Operation {
    pub const ALL: [Operation; 2] = [Operation::Plus, Operation::Minus];

    pub fn name(self) -> &'static [u8] {
        match self {
            Operation::Plus => b"DmAdd",
            Operation::Minus => b"DmSub",
        }
    }

    pub fn of_name(name: &[u8]) -> Option<Operation> {
        Operation::ALL.into_iter().find(|operation| operation.name() == name)
    }

    /// The result's text, or the answer that stops the run.
    pub fn of_text(self, argument: &[u8]) -> Result<Vec<u8>, u64> {
        let (first, second) = two_angles(argument).ok_or(NOT_ANGLES)?;
        let value = match self {
            Operation::Plus => first + second,
            Operation::Minus => first - second,
        };
        if (-MOST..=MOST).contains(&value) { Ok(angle_text(value)) } else { Err(OUT_OF_RANGE) }
    }
}

fn two_angles(argument: &[u8]) -> Option<(i32, i32)> {
    // no angle has a blank in it, so the first one parts them
    let blank = argument.iter().position(|&byte| byte == b' ')?;
    Some((angle(&argument[..blank])?, angle(&argument[blank + 1..])?))
}

/// The minutes of an angle: perhaps `-`, one to three digits up to 359, `:`, two digits up to 59.
pub fn angle(text: &[u8]) -> Option<i32> {
    let (sign, unsigned) = match text {
        [b'-', unsigned @ ..] => (-1, unsigned),
        unsigned => (1, unsigned),
    };
    let [degrees @ .., b':', ten, one] = unsigned else { return None };
    let degrees = if (1..=3).contains(&degrees.len()) { number(degrees)? } else { return None };
    let minutes = number(&[*ten, *one])?;
    (degrees <= MOST_DEGREES && minutes < MINUTES).then_some(sign * (degrees * MINUTES + minutes))
}

fn number(digits: &[u8]) -> Option<i32> {
    digits.iter().try_fold(0, |sum, digit| digit.is_ascii_digit().then(|| sum * 10 + i32::from(digit - b'0')))
}

/// An angle of so many minutes, with no leading zero in its degrees and `-` only below zero.
pub fn angle_text(minutes: i32) -> Vec<u8> {
    let sign = if minutes < 0 { "-" } else { "" };
    let size = minutes.abs();
    format!("{sign}{}:{:02}", size / MINUTES, size % MINUTES).into_bytes()
}
