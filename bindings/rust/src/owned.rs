//! Owned columns, made from values.
use crate::column::{Column, Float, Integer, Kind};
use crate::raw;

/// Bits, one for each row.
#[derive(Clone, Debug, Default, PartialEq, Eq)]
struct Bits {
    bytes: Vec<u8>,
    rows: usize,
}

impl Bits {
    fn push(&mut self, bit: bool) {
        if self.rows % 8 == 0 {
            self.bytes.push(0);
        }
        self.bytes[self.rows / 8] |= u8::from(bit) << (self.rows % 8);
        self.rows += 1;
    }
}

/// A column made from values, some of them null. It owns its buffers.
///
/// ```
/// use yurkije::ColumnBuf;
/// let stocks = ColumnBuf::integers([Some(7i64), None]);
/// let names = ColumnBuf::texts([Some("nut"), Some("bolt")]).expect("short");
/// assert_eq!(stocks.column().rows() + names.column().rows(), 4);
/// ```
///
/// Its rows can be null: `column` borrows it for a nullable field, `column_without_null` for one that is not.
#[derive(Clone, Debug)]
pub struct ColumnBuf<T> {
    validity: Bits,
    values: Vec<T>,
    data: Vec<u8>,
    kind: Kind,
}

impl<T: Copy + Default> ColumnBuf<T> {
    fn of(kind: Kind, values: impl IntoIterator<Item = Option<T>>) -> ColumnBuf<T> {
        let mut made = ColumnBuf { validity: Bits::default(), values: Vec::new(), data: Vec::new(), kind };
        for value in values {
            made.validity.push(value.is_some());
            made.values.push(value.unwrap_or_default());
        }
        made
    }
}

impl<T: Integer> ColumnBuf<T> {
    /// Whole numbers.
    pub fn integers(values: impl IntoIterator<Item = Option<T>>) -> ColumnBuf<T> {
        ColumnBuf::of(T::KIND, values)
    }
}

impl<T: Float> ColumnBuf<T> {
    /// Floats.
    pub fn floats(values: impl IntoIterator<Item = Option<T>>) -> ColumnBuf<T> {
        ColumnBuf::of(T::KIND, values)
    }
}

impl ColumnBuf<i32> {
    /// Dates, as days since 1970-01-01.
    pub fn dates(days: impl IntoIterator<Item = Option<i32>>) -> ColumnBuf<i32> {
        ColumnBuf::of(Kind::Date, days)
    }
}

impl ColumnBuf<i64> {
    /// Timestamps, as microseconds since 1970-01-01T00:00:00.
    pub fn timestamps(microseconds: impl IntoIterator<Item = Option<i64>>) -> ColumnBuf<i64> {
        ColumnBuf::of(Kind::Timestamp, microseconds)
    }

    /// Decimals of so many digits, the last `scale` of them after the point, as whole numbers of the last place.
    pub fn decimals(units: impl IntoIterator<Item = Option<i64>>, precision: u8, scale: u8) -> ColumnBuf<i64> {
        ColumnBuf::of(Kind::Decimal { precision, scale }, units)
    }
}

/// The buffers of texts by offsets.
#[derive(Clone, Copy, Debug)]
#[repr(transparent)]
pub struct Offset(i32);

impl ColumnBuf<Offset> {
    /// Texts; `None` if they have more than 2,147,483,647 bytes together.
    pub fn texts<'t>(values: impl IntoIterator<Item = Option<&'t str>>) -> Option<ColumnBuf<Offset>> {
        ColumnBuf::collect(Kind::Utf8, values.into_iter().map(|value| value.map(str::as_bytes)))
    }

    /// Byte strings.
    pub fn byte_strings<'t>(values: impl IntoIterator<Item = Option<&'t [u8]>>) -> Option<ColumnBuf<Offset>> {
        ColumnBuf::collect(Kind::Binary, values.into_iter())
    }

    fn collect<'t>(kind: Kind, values: impl Iterator<Item = Option<&'t [u8]>>) -> Option<ColumnBuf<Offset>> {
        let mut made = ColumnBuf { validity: Bits::default(), values: vec![Offset(0)], data: Vec::new(), kind };
        for value in values {
            made.validity.push(value.is_some());
            made.data.extend_from_slice(value.unwrap_or(&[]));
            made.values.push(Offset(i32::try_from(made.data.len()).ok()?));
        }
        Some(made)
    }
}

/// The buffers of truth values.
#[derive(Clone, Copy, Debug)]
pub struct Truth;

impl ColumnBuf<Truth> {
    /// Truth values.
    pub fn bools(values: impl IntoIterator<Item = Option<bool>>) -> ColumnBuf<Truth> {
        let mut made = ColumnBuf { validity: Bits::default(), values: Vec::new(), data: Vec::new(), kind: Kind::Bool };
        let mut bits = Bits::default();
        for value in values {
            made.validity.push(value.is_some());
            bits.push(value.unwrap_or(false));
        }
        made.data = bits.bytes;
        made
    }
}

/// The buffers of a `ColumnBuf`.
pub trait Stored: Sized {
    #[doc(hidden)]
    fn lend<'a>(values: &'a [Self], data: &'a [u8], column: &mut raw::Column<'a>);
}

impl<T: Integer> Stored for T {
    fn lend<'a>(values: &'a [Self], _data: &'a [u8], column: &mut raw::Column<'a>) {
        T::lend(values, column);
    }
}

impl Stored for f64 {
    fn lend<'a>(values: &'a [f64], _data: &'a [u8], column: &mut raw::Column<'a>) {
        Float::lend(values, column);
    }
}

impl Stored for f32 {
    fn lend<'a>(values: &'a [f32], _data: &'a [u8], column: &mut raw::Column<'a>) {
        Float::lend(values, column);
    }
}

impl Stored for Offset {
    fn lend<'a>(values: &'a [Self], data: &'a [u8], column: &mut raw::Column<'a>) {
        // SAFETY: an `Offset` is exactly an `i32`.
        let offsets = unsafe { std::slice::from_raw_parts(values.as_ptr().cast::<i32>(), values.len()) };
        column.offsets32 = offsets.into();
        column.data = data.into();
    }
}

impl Stored for Truth {
    fn lend<'a>(_values: &'a [Self], data: &'a [u8], column: &mut raw::Column<'a>) {
        column.bools = data.into();
    }
}

impl<T: Stored> ColumnBuf<T> {
    /// The column of a field whose rows can be null.
    pub fn column(&self) -> Column<'_> {
        self.column_without_null().nullable(Some(&self.validity.bytes))
    }

    /// The column of a field that is not nullable: a null is an error when it is run.
    pub fn column_without_null(&self) -> Column<'_> {
        let mut column = Column::new(self.kind.number(), self.validity.rows);
        column.raw.validity = self.validity.bytes[..].into();
        T::lend(&self.values, &self.data, &mut column.raw);
        column
    }
}
