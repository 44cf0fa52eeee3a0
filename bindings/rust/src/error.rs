//! Errors.
use crate::raw::{Room, Told, NONE};
use std::fmt;

macro_rules! statuses {
    ($($name:ident = $number:literal, $words:literal;)*) => {
        /// The errors of the library, by number and name: 1 to 13 are E1 to E13 of
        /// `docs/REFUSALS.md`.
        #[derive(Clone, Copy, Debug, PartialEq, Eq, Hash)]
        #[non_exhaustive]
        pub enum Status {
            $(#[doc = $words] $name = $number,)*
        }

        impl Status {
            fn of(number: u32) -> Option<Status> {
                match number {
                    $($number => Some(Status::$name),)*
                    _ => None,
                }
            }

            /// Its name, as `Arithmetic`.
            pub fn name(self) -> &'static str {
                match self {
                    $(Status::$name => stringify!($name),)*
                }
            }

            fn words(self) -> &'static str {
                match self {
                    $(Status::$name => $words,)*
                }
            }
        }

        /// Each status with its number, for tests.
        pub const STATUSES: &[(u32, &str)] = &[$(($number, stringify!($name)),)*];
    };
}

statuses! {
    IndexOutOfBounds = 1, "an index is out of bounds";
    LengthMismatch = 2, "a column has another number of rows than the batch";
    TypeMismatch = 3, "a function does not take the types of its operands";
    NotBooleanOperator = 4, "an operator is no boolean one";
    NotCompareOperator = 5, "an operator is no comparison";
    ArityMismatch = 6, "a function takes another number of operands";
    Arithmetic = 7, "a result does not fit its type, or is divided by 0";
    BadOptions = 8, "options are malformed";
    OutOfMemory = 9, "memory was refused";
    Custom = 10, "a function of a caller's refused";
    ScopeMismatch = 11, "no field has that name, or a column is missing or not as its field";
    InvalidColumn = 12, "a column is malformed";
    NoSuchPlace = 13, "there is no such place";
    EmptyHandle = 100, "the handle holds nothing";
    NoSuchNumber = 101, "there is no answer or field of that number";
    UnknownKind = 102, "a kind that is none";
    OtherKind = 103, "the answer is of another kind";
    RoomTooSmall = 104, "a text has more bytes than there is room";
    NotAText = 110, "the text, or the name of a field, is not UTF-8";
    NameTwice = 111, "two fields have one name";
    NoExpression = 112, "the text is not written as expressions are";
    UnknownType = 113, "no type has that name";
    NotHeld = 114, "a literal is no value of its type";
    UntypedNull = 115, "a null that nothing gives a type (no call returns it now: such a null is a text)";
    NoEscape = 116, "the escape of a LIKE is more than one character";
    NoCast = 117, "no cast leads to that type";
    NoFunction = 118, "no function has that name";
    NotOfKind = 119, "a literal is no date, timestamp, decimal or float";
    ValidityTooShort = 120, "validity is too short";
    ValuesTooShort = 121, "values are too short";
    OffsetsTooShort = 122, "offsets are too short";
    DataTooShort = 123, "data are too short";
    UnexpectedNull = 124, "a null in a column that is not nullable";
    OffsetsFall = 125, "an offset is negative, or below the one before it";
    PastData = 126, "an offset is past the end of the data";
    ViewOutOfRange = 127, "a view names bytes that are not there";
    PrefixDiffers = 128, "a view tells other first bytes than its buffer has";
    NotPadded = 129, "a text within its view is not followed by zeros";
    NotUtf8 = 130, "a text is not UTF-8";
    TooLong = 131, "texts are too long";
    Contradiction = 132, "statistics contradict themselves";
}

impl Status {
    /// Its number in `yurkije.h`.
    pub fn number(self) -> u32 {
        self as u32
    }
}

/// A position in the text of an expression.
#[derive(Clone, Copy, Debug, PartialEq, Eq)]
pub struct Place {
    /// The byte, from 0 on.
    pub byte: Option<usize>,
    /// The line, from 1 on, or 0 if unknown.
    pub line: usize,
    /// The character in that line, from 1 on, or 0 if unknown.
    pub character: usize,
}

/// Why a call failed.
#[derive(Clone, Debug, PartialEq, Eq)]
pub enum Error {
    /// An allocation failed (E9).
    OutOfMemory,
    /// A text is no expression over its fields.
    Expression { status: Status, place: Place, message: String },
    /// A field or a column, or its statistics, by its number, is wrong, in that row if one row is wrong, or in that group.
    Column { status: Status, column: Option<usize>, row: Option<usize>, message: String },
    /// In that row an answer faults (E7): the first row in which one does, and the first answer
    /// that does there.
    Fault { status: Status, answer: Option<usize>, row: usize, message: String },
    /// The call itself is wrong: an answer that does not exist, or has another type.
    Use { status: Status },
    /// An error of a later library.
    Unknown { number: u32, message: String },
}

impl Error {
    fn status(&self) -> Option<Status> {
        match self {
            Error::OutOfMemory => Some(Status::OutOfMemory),
            Error::Expression { status, .. } | Error::Column { status, .. } => Some(*status),
            Error::Fault { status, .. } | Error::Use { status } => Some(*status),
            Error::Unknown { .. } => None,
        }
    }

    /// The number of `yurkije.h`.
    pub fn number(&self) -> u32 {
        match self {
            Error::Unknown { number, .. } => *number,
            known => known.status().map_or(0, Status::number),
        }
    }

    /// The name, as `Arithmetic`.
    pub fn name(&self) -> &'static str {
        self.status().map_or("Unknown", Status::name)
    }

    /// The field or column that is wrong, from 0 on.
    pub fn column(&self) -> Option<usize> {
        match self {
            Error::Column { column, .. } => *column,
            _ => None,
        }
    }

    /// The row that is wrong or faults, from 0 on.
    pub fn row(&self) -> Option<usize> {
        match self {
            Error::Column { row, .. } => *row,
            Error::Fault { row, .. } => Some(*row),
            _ => None,
        }
    }

    /// The position in the text.
    pub fn place(&self) -> Option<Place> {
        match self {
            Error::Expression { place, .. } => Some(*place),
            _ => None,
        }
    }

    /// An error with only its status.
    pub(crate) fn of_status(number: u32) -> Error {
        match Status::of(number) {
            Some(Status::OutOfMemory) => Error::OutOfMemory,
            Some(status) => Error::Use { status },
            None => Error::Unknown { number, message: String::new() },
        }
    }
}

impl fmt::Display for Error {
    fn fmt(&self, f: &mut fmt::Formatter<'_>) -> fmt::Result {
        match self {
            Error::OutOfMemory => f.write_str("out of memory"),
            Error::Expression { message, .. }
            | Error::Column { message, .. }
            | Error::Fault { message, .. }
            | Error::Unknown { message, .. } => f.write_str(message),
            Error::Use { status } => f.write_str(status.words()),
        }
    }
}

impl std::error::Error for Error {}

fn known(number: usize) -> Option<usize> {
    if number == NONE {
        None
    } else {
        Some(number)
    }
}

/// Makes a call that reports why it failed.
pub(crate) fn told(call: impl FnOnce(&mut Told<'_>) -> u32) -> Result<(), Error> {
    let mut room = [0; 500];
    let mut told = Told {
        status: 0,
        answer: NONE,
        column: NONE,
        row: NONE,
        byte: NONE,
        line: 0,
        character: 0,
        message: Room::from(&mut room[..]),
        message_length: 0,
    };
    let number = call(&mut told);
    if number == 0 {
        return Ok(());
    }
    let place = Place { byte: known(told.byte), line: told.line, character: told.character };
    let (answer, column, row, length) = (known(told.answer), known(told.column), known(told.row), told.message_length);
    let message = String::from_utf8_lossy(&room[..length.min(room.len())]).into_owned();
    Err(match (Status::of(number), row) {
        (None, _) => Error::Unknown { number, message },
        (Some(Status::OutOfMemory), _) => Error::OutOfMemory,
        (Some(status @ Status::NoSuchNumber), _) => Error::Use { status },
        (Some(status), _) if place.byte.is_some() || place.line > 0 => Error::Expression { status, place, message },
        (Some(status @ Status::Arithmetic), Some(row)) => Error::Fault { status, answer, row, message },
        (Some(status), row) => Error::Column { status, column, row, message },
    })
}

/// Makes a call that reports only its status.
pub(crate) fn checked(number: u32) -> Result<(), Error> {
    if number == 0 {
        Ok(())
    } else {
        Err(Error::of_status(number))
    }
}
