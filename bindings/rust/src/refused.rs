//! The refusals: each number of include/jdr.h by name, with a sentence.

use crate::calls::Answer;
use core::fmt;

/// Says each reason once: its name, its number and its sentence.
macro_rules! reasons {
    (answers { $($name:ident = $number:literal, $message:literal;)* } rows { $($row:ident = $row_number:literal, $row_message:literal;)* }) => {
        /// Why the library refused something.
        #[derive(Clone, Copy, Debug, PartialEq, Eq, Hash)]
        #[non_exhaustive]
        pub enum Reason {
            $(#[doc = concat!(stringify!($number), ": ", $message, ".")] $name,)*
            $(#[doc = concat!(stringify!($row_number), ", of a question about a row: ", $row_message, ".")] $row,)*
            /// A number that this version of the crate does not know.
            Other(u32),
        }

        impl Reason {
            /// All reasons that have a name.
            pub const ALL: &'static [Reason] = &[$(Reason::$name,)* $(Reason::$row,)*];

            /// The number, as include/jdr.h has it.
            pub fn number(self) -> u32 {
                match self {
                    $(Reason::$name => $number,)*
                    $(Reason::$row => $row_number,)*
                    Reason::Other(number) => number,
                }
            }

            /// The number in words.
            pub fn message(self) -> &'static str {
                match self {
                    $(Reason::$name => $message,)*
                    $(Reason::$row => $row_message,)*
                    Reason::Other(_) => "a number that no call gives",
                }
            }

            fn of_answer(number: u32) -> Reason {
                match number {
                    $($number => Reason::$name,)*
                    _ => Reason::Other(number),
                }
            }

            fn of_row(number: u32) -> Reason {
                match number {
                    $($row_number => Reason::$row,)*
                    _ => Reason::of_answer(number),
                }
            }
        }
    };
}

reasons! {
    answers {
        TooLong = 1, "the file is longer than the limit";
        Cut = 2, "the file ends before or within a field";
        NoJdr = 3, "the file does not begin with 'JDR'";
        BadVersion = 4, "the version is not one that is read";
        BadFlag = 5, "a flag is neither 0 nor 1";
        OutOfRange = 6, "a byte or an integer is out of range";
        BadChar = 7, "a char is not allowed here in this version";
        BadCount = 8, "a count or a length is negative, 0 where 1 is needed, or an odd number of dashes";
        BadComponent = 9, "a paint component is out of range";
        TooDeep = 10, "groups are nested too deep, or a chain has too many markers";
        FlowFrame = 11, "an object has a flow frame";
        Unjoined = 12, "a segment does not start where the one before it ends";
        TrailingBytes = 13, "bytes follow the end of the drawing";
        ContentsTooShort = 14, "the contents lent are too short";
        BodiesTooShort = 15, "the bodies lent are too short";
        NoTable = 16, "the words are no table of a drawing";
        OutputTooShort = 17, "the output lent is too short";
        ListTooShort = 18, "the list lent is too short";
        NoSheet = 19, "the bytes are no sheet of a table";
        NotANumber = 20, "a coordinate is not a number";
        NoSession = 22, "the session was not opened";
    }
    rows {
        NoRow = 6, "the table has no such row";
        NoPart = 7, "the row's object has no such part";
    }
}

/// The library refused what it was given, and left all memory lent as it was; only a session is spent by a refusal.
#[derive(Clone, Copy, Debug, PartialEq, Eq, Hash)]
pub struct Refused {
    /// Why.
    pub reason: Reason,
    /// Of a file, the first byte of the field at fault; of a room that is too short for bytes or entries, how many are needed; else 0.
    pub offset: u32,
    /// Of contents or bodies that are too short, the rows that are needed; else 0.
    pub rows: u32,
    /// Of contents or bodies that are too short, the words of bodies that are needed; else 0.
    pub words: u32,
}

impl Refused {
    /// The number, as include/jdr.h has it.
    pub fn number(&self) -> u32 {
        self.reason.number()
    }

    /// The number in words.
    pub fn message(&self) -> &'static str {
        self.reason.message()
    }

    /// What a question about a row answered, where its number is 0.
    pub(crate) fn unless<T>(number: u32, given: impl FnOnce() -> T) -> Result<T, Refused> {
        match number {
            0 => Ok(given()),
            _ => Err(Refused { reason: Reason::of_row(number), offset: 0, rows: 0, words: 0 }),
        }
    }
}

impl Answer {
    /// The answer where its number is 0.
    pub fn accepted(self) -> Result<Answer, Refused> {
        let Answer { number, offset, rows, words } = self;
        match number {
            0 => Ok(self),
            _ => Err(Refused { reason: Reason::of_answer(number), offset, rows, words }),
        }
    }
}

impl fmt::Display for Refused {
    fn fmt(&self, f: &mut fmt::Formatter<'_>) -> fmt::Result {
        write!(f, "{} (number {}, offset {})", self.message(), self.number(), self.offset)
    }
}

#[cfg(feature = "std")]
impl std::error::Error for Refused {}
