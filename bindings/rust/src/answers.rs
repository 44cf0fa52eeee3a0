//! Answers, copied out of the library.
use crate::column::{Float, Integer, Kind};
use crate::error::{checked, Error, Status};
use crate::raw::{self, Handle, Rooms, Size};

/// The answers of an expression over a batch. Threads may share them, and pass them on to one another.
///
/// ```
/// fn shares_and_sends<T: Sync + Send>() {}
/// shares_and_sends::<yurkije::Answers>();
/// ```
#[derive(Debug)]
pub struct Answers {
    pub(crate) raw: Handle,
    pub(crate) kinds: Vec<Kind>,
}

// SAFETY: the calls through `&self` only read the handle, and the library lets threads make them at
// once.
unsafe impl Sync for Answers {}

// SAFETY: a handle owns what it points to, alone, and the library lets another thread than the one that
// filled it use and free it.
unsafe impl Send for Answers {}

/// An answer of whole numbers, floats, days or microseconds.
#[derive(Clone, Debug, PartialEq, Eq)]
pub struct Integers<T> {
    /// A bit for each row, set where it is not null, least significant first.
    pub validity: Vec<u8>,
    /// A number for each row; arbitrary where it is null.
    pub values: Vec<T>,
}

/// A decimal: so many units of its last place, of `scale` digits after the point. 12.50 is 1250 units in two places.
#[derive(Clone, Copy, Debug, PartialEq, Eq, Hash)]
pub struct Decimal {
    pub units: i64,
    pub scale: u8,
}

/// All digits after the point, and one before it at least: `12.50`, `-0.05`, `7`.
impl std::fmt::Display for Decimal {
    fn fmt(&self, out: &mut std::fmt::Formatter<'_>) -> std::fmt::Result {
        let places = usize::from(self.scale);
        let digits = format!("{:0width$}", self.units.unsigned_abs(), width = places + 1);
        let (whole, rest) = digits.split_at(digits.len() - places);
        let sign = if self.units < 0 { "-" } else { "" };
        out.pad(&if places == 0 { format!("{sign}{whole}") } else { format!("{sign}{whole}.{rest}") })
    }
}

/// An answer of decimals.
#[derive(Clone, Debug, PartialEq, Eq)]
pub struct Decimals {
    pub validity: Vec<u8>,
    /// A number of units of the last place for each row; arbitrary where it is null.
    pub units: Vec<i64>,
    /// How many digits the type tells, 1 to 18. It is not checked that each value has no more.
    pub precision: u8,
    pub scale: u8,
}

impl Decimals {
    /// The rows, `None` for null.
    pub fn iter(&self) -> impl Iterator<Item = Option<Decimal>> + '_ {
        let decimal = move |(row, units): (usize, &i64)| bit(&self.validity, row).then_some(Decimal { units: *units, scale: self.scale });
        self.units.iter().enumerate().map(decimal)
    }
}

/// An answer of truth values.
#[derive(Clone, Debug, PartialEq, Eq)]
pub struct Bools {
    pub validity: Vec<u8>,
    /// A bit for each row, set where it is true; arbitrary where it is null.
    pub bits: Vec<u8>,
    pub rows: usize,
}

/// An answer of texts or byte strings.
#[derive(Clone, Debug, PartialEq, Eq)]
pub struct ByteStrings {
    pub validity: Vec<u8>,
    /// Row `i` begins at this offset in the data, and ends at the next.
    pub offsets: Vec<i64>,
    pub data: Vec<u8>,
}

fn bit(bytes: &[u8], row: usize) -> bool {
    bytes[row / 8] >> (row % 8) & 1 == 1
}

impl<T: Copy> Integers<T> {
    /// The rows, `None` for null.
    pub fn iter(&self) -> impl Iterator<Item = Option<T>> + '_ {
        self.values.iter().enumerate().map(move |(row, value)| if bit(&self.validity, row) { Some(*value) } else { None })
    }
}

impl Bools {
    /// The rows, `None` for null.
    pub fn iter(&self) -> impl Iterator<Item = Option<bool>> + '_ {
        (0..self.rows).map(move |row| if bit(&self.validity, row) { Some(bit(&self.bits, row)) } else { None })
    }
}

impl ByteStrings {
    /// The rows, `None` for null.
    pub fn iter(&self) -> impl Iterator<Item = Option<&[u8]>> + '_ {
        self.offsets.windows(2).enumerate().map(move |(row, ends)| {
            if bit(&self.validity, row) {
                self.data.get(ends[0] as usize..ends[1] as usize)
            } else {
                None
            }
        })
    }

    /// The same for texts.
    pub fn texts(&self) -> impl Iterator<Item = Option<&str>> + '_ {
        self.iter().map(|row| row.and_then(|bytes| std::str::from_utf8(bytes).ok()))
    }
}

impl Answers {
    fn handle(&self) -> *const Handle {
        &self.raw
    }

    /// How many answers there are.
    pub fn len(&self) -> usize {
        self.kinds.len()
    }

    /// Always false: an expression has at least one answer.
    pub fn is_empty(&self) -> bool {
        self.kinds.is_empty()
    }

    fn size(&self, answer: usize, wanted: &[Kind]) -> Result<Size, Error> {
        match self.kinds.get(answer) {
            Some(kind) if wanted.contains(kind) => {}
            Some(_) => return Err(Error::Use { status: Status::OtherKind }),
            None => return Err(Error::Use { status: Status::NoSuchNumber }),
        }
        let mut size = Size::default();
        // SAFETY: the handle is read, and the size is a struct of Rust.
        checked(unsafe { raw::yk_answer_size(self.handle(), answer, &mut size) })?;
        Ok(size)
    }

    fn copy(&self, answer: usize, mut rooms: Rooms<'_>) -> Result<(), Error> {
        // SAFETY: the handle is read, and the rooms borrow slices of Rust that nothing else uses.
        checked(unsafe { raw::yk_answer_copy(self.handle(), answer, &mut rooms) })
    }

    /// The answer of that number, of whole numbers of the type `T`.
    pub fn integers<T: Integer>(&self, answer: usize) -> Result<Integers<T>, Error> {
        self.numbers(answer, T::KIND, T::make_room)
    }

    /// The answer of that number, of floats of the type `T`.
    pub fn floats<T: Float>(&self, answer: usize) -> Result<Integers<T>, Error> {
        self.numbers(answer, T::KIND, T::make_room)
    }

    /// The answer of that number, of dates: days since 1970-01-01.
    pub fn dates(&self, answer: usize) -> Result<Integers<i32>, Error> {
        self.numbers(answer, Kind::Date, i32::make_room)
    }

    /// The answer of that number, of timestamps: microseconds since 1970-01-01T00:00:00.
    pub fn timestamps(&self, answer: usize) -> Result<Integers<i64>, Error> {
        self.numbers(answer, Kind::Timestamp, i64::make_room)
    }

    /// The answer of that number, of decimals.
    pub fn decimals(&self, answer: usize) -> Result<Decimals, Error> {
        match self.kinds.get(answer) {
            Some(&kind @ Kind::Decimal { precision, scale }) => {
                let Integers { validity, values: units } = self.numbers(answer, kind, i64::make_room)?;
                Ok(Decimals { validity, units, precision, scale })
            }
            Some(_) => Err(Error::Use { status: Status::OtherKind }),
            None => Err(Error::Use { status: Status::NoSuchNumber }),
        }
    }

    fn numbers<T: Copy + Default>(
        &self,
        answer: usize,
        kind: Kind,
        make_room: for<'a> fn(&'a mut [T], &mut Rooms<'a>),
    ) -> Result<Integers<T>, Error> {
        let size = self.size(answer, &[kind])?;
        let (mut validity, mut values) = (vec![0; size.validity], vec![T::default(); size.values]);
        let mut rooms = Rooms { kind: kind.number(), validity: validity[..].as_mut().into(), ..Default::default() };
        make_room(&mut values, &mut rooms);
        self.copy(answer, rooms)?;
        Ok(Integers { validity, values })
    }

    /// The answer of that number, of truth values.
    pub fn bools(&self, answer: usize) -> Result<Bools, Error> {
        let size = self.size(answer, &[Kind::Bool])?;
        let (mut validity, mut bits) = (vec![0; size.validity], vec![0; size.values]);
        let rooms = Rooms {
            kind: Kind::Bool.number(),
            validity: validity[..].as_mut().into(),
            bools: bits[..].as_mut().into(),
            ..Default::default()
        };
        self.copy(answer, rooms)?;
        Ok(Bools { validity, bits, rows: size.rows })
    }

    /// The answer of that number, of texts or byte strings.
    pub fn byte_strings(&self, answer: usize) -> Result<ByteStrings, Error> {
        let size = self.size(answer, &[Kind::Utf8, Kind::Binary])?;
        let kind = if self.kinds[answer] == Kind::Utf8 { crate::column::LARGE_UTF8 } else { crate::column::LARGE_BINARY };
        let (mut validity, mut offsets, mut data) = (vec![0; size.validity], vec![0; size.offsets], vec![0; size.data]);
        let rooms = Rooms {
            kind,
            validity: validity[..].as_mut().into(),
            offsets64: offsets[..].as_mut().into(),
            data: data[..].as_mut().into(),
            ..Default::default()
        };
        self.copy(answer, rooms)?;
        Ok(ByteStrings { validity, offsets, data })
    }

    /// The numbers of the rows in which that answer, a truth value, is true, ascending from 0 on.
    pub fn select(&self, answer: usize) -> Result<Vec<u64>, Error> {
        let rows = self.size(answer, &[Kind::Bool])?.rows;
        let (mut numbers, mut count) = (vec![0; rows], 0);
        // SAFETY: the handle is read, and the room is a slice of Rust.
        checked(unsafe { raw::yk_select(self.handle(), answer, numbers.as_mut_ptr(), rows, &mut count) })?;
        numbers.truncate(count);
        Ok(numbers)
    }

    /// Whether that answer, a truth value, is true in each row: false where it is null.
    pub fn mask(&self, answer: usize) -> Result<Vec<bool>, Error> {
        let mut mask = vec![0; self.size(answer, &[Kind::Bool])?.rows];
        // SAFETY: the handle is read, and the room is a slice of Rust.
        checked(unsafe { raw::yk_mask(self.handle(), answer, mask.as_mut_ptr(), mask.len()) })?;
        Ok(mask.into_iter().map(|byte: u8| byte == 1).collect())
    }
}

impl Drop for Answers {
    fn drop(&mut self) {
        // SAFETY: the handle is as the library left it, and nothing uses it after this.
        unsafe { raw::yk_answers_free(&mut self.raw) }
    }
}
