//! The numbers that the engine answers.

macro_rules! answers {
    ($($(#[$said:meta])* $name:ident = $number:literal,)*) => {
        /// What became of a table or a run. `Display` says it in a few words; docs/MANUAL.md has each with its causes.
        #[derive(Clone, Copy, PartialEq, Eq, Hash, Debug)]
        #[non_exhaustive]
        pub enum Answer {
            $($(#[$said])* $name = $number,)*
        }

        impl Answer {
            pub const ALL: &'static [Answer] = &[$(Answer::$name),*];
        }
    };
}

answers! {
    /// Done.
    Done = 0,
    /// A table of more than 32,768 bytes.
    TableTooLong = 1,
    /// A string, a comment or `<` without its end or form.
    MalformedToken = 2,
    /// A token that the grammar doesn't allow there.
    NotAllowedHere = 3,
    /// Something passes another limit.
    OverLimit = 4,
    /// A name declared twice or reserved, a condition on no predicate, a predicate called.
    WrongName = 5,
    /// A variable that can't stand in its pattern.
    PatternVariable = 6,
    /// A variable that isn't in the pattern, or an e-variable repeated or out of order.
    LaterVariable = 7,
    /// A called function that isn't declared.
    NotDeclared = 8,
    /// The start is 0 or above the number of functions.
    NoStart = 9,
    /// The text is longer than stack in.
    TextTooLong = 10,
    /// No sentence fits.
    NothingFits = 11,
    /// The steps of the allowance are used.
    AllowanceSpent = 12,
    /// Stack in would pass its left end.
    StackInFull = 13,
    /// Stack out has no cell left.
    StackOutFull = 14,
    /// 256 applications wait for one another.
    FramesFull = 15,
    /// An emission doesn't fit the record.
    RecordFull = 16,
    /// The code or the listing doesn't fit what was lent.
    BufferTooShort = 17,
    /// The words are no code.
    NoCode = 18,
    /// A declared call that is no tail call.
    NotFlat = 19,
    /// DmAdd or DmSub was given something else than two angles.
    NoAngles = 20,
    /// A sum or difference of angles passes 359:59 either way.
    AngleOutOfRange = 21,
}

impl Answer {
    pub fn number(self) -> u64 {
        self as u64
    }

    /// The answer of a number; the engine gives no other.
    pub(crate) fn of(number: u64) -> Answer {
        let found = Answer::ALL.iter().find(|answer| answer.number() == number);
        *found.expect("the engine answers 0 to 21")
    }

    fn words(self) -> &'static str {
        match self {
            Answer::Done => "done",
            Answer::TableTooLong => "the table is too long",
            Answer::MalformedToken => "a token without its end or form",
            Answer::NotAllowedHere => "not allowed here",
            Answer::OverLimit => "over a limit",
            Answer::WrongName => "a name that can't stand there",
            Answer::PatternVariable => "a variable that can't stand in its pattern",
            Answer::LaterVariable => "a variable that can't stand after its pattern",
            Answer::NotDeclared => "a called function isn't declared",
            Answer::NoStart => "the function to start with isn't there",
            Answer::TextTooLong => "the text is longer than stack in",
            Answer::NothingFits => "no sentence fits",
            Answer::AllowanceSpent => "the steps of the allowance are used",
            Answer::StackInFull => "stack in is full",
            Answer::StackOutFull => "stack out is full",
            Answer::FramesFull => "the frames are used up",
            Answer::RecordFull => "the record is full",
            Answer::BufferTooShort => "a lent buffer is too short",
            Answer::NoCode => "the words are no code",
            Answer::NotFlat => "a declared call that is no tail call",
            Answer::NoAngles => "no two angles",
            Answer::AngleOutOfRange => "an angle out of range",
        }
    }
}

impl std::fmt::Display for Answer {
    fn fmt(&self, formatter: &mut std::fmt::Formatter) -> std::fmt::Result {
        write!(formatter, "{} ({})", self.words(), self.number())
    }
}
