//! The thirteen reasons to refuse.

/// Why a call is refused.
#[derive(Clone, Copy, Debug, PartialEq, Eq, Hash)]
#[non_exhaustive]
pub enum Kind {
    /// A text has over 1,048,576 bytes.
    TextTooLong = 1,
    /// A table is too short. This crate sizes its tables, so it never gives this.
    TableTooShort = 2,
    /// A text ends too early, but could be continued.
    Unfinished = 3,
    /// A byte that can't stand where it does, for none of the reasons below.
    WrongByte = 4,
    /// A bracket that would open a 65th container.
    TooDeep = 5,
    /// A number with over 18 digits.
    TooManyDigits = 6,
    /// An exponent of over 3 digits, or outside -999 to 999.
    Exponent = 7,
    /// The closing quote of a name that the same object already has.
    NameTwice = 8,
    /// A byte of 80 (hex) or more in a string.
    NotAscii = 9,
    /// The JSON pointer is none, or is too long.
    PointerMalformed = 10,
    /// The JSON pointer names nothing in the text.
    NothingThere = 11,
    /// The output is too short. This crate sizes its outputs, so it never gives this.
    OutputTooShort = 12,
    /// The result has over 1,048,576 bytes.
    ResultTooLong = 13,
}

impl Kind {
    /// Every kind, in the order of the numbers.
    pub const ALL: [Kind; 13] = [
        Kind::TextTooLong,
        Kind::TableTooShort,
        Kind::Unfinished,
        Kind::WrongByte,
        Kind::TooDeep,
        Kind::TooManyDigits,
        Kind::Exponent,
        Kind::NameTwice,
        Kind::NotAscii,
        Kind::PointerMalformed,
        Kind::NothingThere,
        Kind::OutputTooShort,
        Kind::ResultTooLong,
    ];

    /// The kind of this number, from 1 to 13.
    pub fn of(number: u32) -> Option<Kind> {
        Kind::ALL.into_iter().find(|kind| kind.number() == number)
    }

    /// Its number, from 1 to 13.
    pub fn number(self) -> u32 {
        self as u32
    }

    /// Its name in two or three words.
    pub fn name(self) -> &'static str {
        match self {
            Kind::TextTooLong => "text too long",
            Kind::TableTooShort => "table too short",
            Kind::Unfinished => "unfinished text",
            Kind::WrongByte => "wrong byte",
            Kind::TooDeep => "too deep",
            Kind::TooManyDigits => "too many digits",
            Kind::Exponent => "exponent out of range",
            Kind::NameTwice => "name twice",
            Kind::NotAscii => "not ASCII",
            Kind::PointerMalformed => "malformed pointer",
            Kind::NothingThere => "nothing there",
            Kind::OutputTooShort => "output too short",
            Kind::ResultTooLong => "result too long",
        }
    }

    /// The rule that was broken, as a sentence for whoever wrote the input.
    pub fn sentence(self) -> &'static str {
        match self {
            Kind::TextTooLong => "A text may have at most 1,048,576 bytes.",
            Kind::TableTooShort => "A table needs four words for each byte of its text.",
            Kind::Unfinished => "The text ends before its value is complete.",
            Kind::WrongByte => "No text can go on with this byte here.",
            Kind::TooDeep => "At most 64 arrays and objects may be open at once.",
            Kind::TooManyDigits => "A number may have at most 18 digits, before and behind the point together.",
            Kind::Exponent => {
                "An exponent may have at most 3 digits, and lies from -999 to 999 when the number is written \
                 without a point and without zeros at its end."
            }
            Kind::NameTwice => "An object may have each name only once, however the name is escaped.",
            Kind::NotAscii => "A string is written in ASCII: other characters are written as \\u and four hex digits.",
            Kind::PointerMalformed => {
                "A JSON pointer is empty or made of tokens, each behind a /, with ~0 for ~ and ~1 for / inside \
                 them; it is ASCII and has at most 65,536 bytes."
            }
            Kind::NothingThere => {
                "A token names a member of an object, or an element of an array by its index, which counts from 0 \
                 and has no zeros before it."
            }
            Kind::OutputTooShort => "The output must have at least the length that is needed.",
            Kind::ResultTooLong => "A result may have at most 1,048,576 bytes.",
        }
    }
}
