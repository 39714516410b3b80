//! The five byte classes that conditions ask about, the names that may not be declared, and how a recovery is named.

use crate::angles::Operation;

#[derive(Clone, Copy, PartialEq, Eq, Debug)]
pub enum Class {
    Digit,
    Upper,
    Lower,
    Letter,
    Blank,
}

impl Class {
    pub const ALL: [Class; 5] = [Class::Digit, Class::Upper, Class::Lower, Class::Letter, Class::Blank];

    pub fn predicate(self) -> &'static [u8] {
        match self {
            Class::Digit => b"IsDigit",
            Class::Upper => b"IsUpper",
            Class::Lower => b"IsLower",
            Class::Letter => b"IsLetter",
            Class::Blank => b"IsBlank",
        }
    }

    pub fn of_predicate(name: &[u8]) -> Option<Class> {
        Class::ALL.into_iter().find(|class| class.predicate() == name)
    }

    pub fn holds(self, byte: u8) -> bool {
        match self {
            Class::Digit => (48..=57).contains(&byte),
            Class::Upper => (65..=90).contains(&byte),
            Class::Lower => (97..=122).contains(&byte),
            Class::Letter => Class::Upper.holds(byte) || Class::Lower.holds(byte),
            Class::Blank => matches!(byte, 32 | 9 | 10 | 13),
        }
    }
}

pub fn is_emission(name: &[u8]) -> bool {
    name.starts_with(b"Emit")
}

/// A function whose name begins so has no function that recovers it.
pub const RECOVER: &[u8] = b"Recover";

pub fn is_reserved(name: &[u8]) -> bool {
    is_emission(name) || Class::of_predicate(name).is_some() || Operation::of_name(name).is_some()
}
