//! Types, and borrowed columns.
use crate::raw;

/// The types of fields, columns and answers.
#[derive(Clone, Copy, Debug, PartialEq, Eq, Hash)]
pub enum Kind {
    Bool,
    I8,
    I16,
    I32,
    I64,
    U8,
    U16,
    U32,
    U64,
    Utf8,
    Binary,
    /// Floats. A NaN equals a NaN and is the greatest; -0 is read as 0.
    F64,
    F32,
    /// Days since 1970-01-01.
    Date,
    /// Microseconds since 1970-01-01T00:00:00.
    Timestamp,
    /// Decimals of at most `precision` digits, 1 to 18, the last `scale` of them after the point, as whole numbers of
    /// the last place: 12.50 in two places is 1250. Another precision or scale is an error where an expression is read.
    Decimal {
        precision: u8,
        scale: u8,
    },
    /// A list or a struct, which no call copies.
    Other,
}

const KINDS: [(u32, Kind); 19] = [
    (1, Kind::Bool),
    (2, Kind::I8),
    (3, Kind::I16),
    (4, Kind::I32),
    (5, Kind::I64),
    (6, Kind::U8),
    (7, Kind::U16),
    (8, Kind::U32),
    (9, Kind::U64),
    (10, Kind::Utf8),
    (11, Kind::Utf8),
    (12, Kind::Utf8),
    (13, Kind::Binary),
    (14, Kind::Binary),
    (15, Kind::Binary),
    (16, Kind::F64),
    (17, Kind::F32),
    (18, Kind::Date),
    (19, Kind::Timestamp),
];

pub(crate) const LARGE_UTF8: u32 = 11;
pub(crate) const UTF8_VIEW: u32 = 12;
pub(crate) const LARGE_BINARY: u32 = 14;
pub(crate) const BINARY_VIEW: u32 = 15;

/// The last byte of a kind of decimals.
const DECIMAL: u32 = 20;

impl Kind {
    pub(crate) fn number(self) -> u32 {
        if let Kind::Decimal { precision, scale } = self {
            return DECIMAL + 256 * u32::from(precision) + 65536 * u32::from(scale);
        }
        KINDS.iter().find(|(_, kind)| *kind == self).map_or(0, |(number, _)| *number)
    }

    pub(crate) fn of(number: u32) -> Kind {
        let [last, precision, scale, _] = number.to_le_bytes();
        if u32::from(last) == DECIMAL {
            return Kind::Decimal { precision, scale };
        }
        KINDS.iter().find(|(other, _)| *other == number).map_or(Kind::Other, |(_, kind)| *kind)
    }
}

/// The type of a field or an answer.
#[derive(Clone, Copy, Debug, PartialEq, Eq, Hash)]
pub struct Type {
    pub kind: Kind,
    /// Whether a row can be null.
    pub nullable: bool,
}

/// A named column of the scope that an expression is read over.
#[derive(Clone, Copy, Debug, PartialEq, Eq, Hash)]
pub struct Field<'a> {
    pub name: &'a str,
    pub of: Type,
}

impl<'a> Field<'a> {
    /// A field in which no row is null.
    pub fn new(name: &'a str, kind: Kind) -> Field<'a> {
        Field { name, of: Type { kind, nullable: false } }
    }

    /// The field whose rows can be null.
    pub fn nullable(name: &'a str, kind: Kind) -> Field<'a> {
        Field { name, of: Type { kind, nullable: true } }
    }
}

mod sealed {
    pub trait Sealed {}
}

/// The eight integer types.
pub trait Integer: sealed::Sealed + Copy + Default + 'static {
    const KIND: Kind;
    #[doc(hidden)]
    fn lend<'a>(values: &'a [Self], column: &mut raw::Column<'a>);
    #[doc(hidden)]
    fn make_room<'a>(values: &'a mut [Self], rooms: &mut raw::Rooms<'a>);
}

macro_rules! integers {
    ($($slot:ident $kind:ident)*) => {$(
        impl sealed::Sealed for $slot {}

        impl Integer for $slot {
            const KIND: Kind = Kind::$kind;

            fn lend<'a>(values: &'a [Self], column: &mut raw::Column<'a>) {
                column.$slot = values.into();
            }

            fn make_room<'a>(values: &'a mut [Self], rooms: &mut raw::Rooms<'a>) {
                rooms.$slot = values.into();
            }
        }
    )*};
}

integers! { i8 I8 i16 I16 i32 I32 i64 I64 u8 U8 u16 U16 u32 U32 u64 U64 }

/// The two types of floats.
pub trait Float: sealed::Sealed + Copy + Default + 'static {
    const KIND: Kind;
    #[doc(hidden)]
    fn lend<'a>(values: &'a [Self], column: &mut raw::Column<'a>);
    #[doc(hidden)]
    fn make_room<'a>(values: &'a mut [Self], rooms: &mut raw::Rooms<'a>);
}

macro_rules! floats {
    ($($float:ident $slot:ident $kind:ident)*) => {$(
        impl sealed::Sealed for $float {}

        impl Float for $float {
            const KIND: Kind = Kind::$kind;

            fn lend<'a>(values: &'a [Self], column: &mut raw::Column<'a>) {
                column.$slot = values.into();
            }

            fn make_room<'a>(values: &'a mut [Self], rooms: &mut raw::Rooms<'a>) {
                rooms.$slot = values.into();
            }
        }
    )*};
}

floats! { f64 i64 F64 f32 i32 F32 }

/// A column in Arrow's layout, borrowed. Begin with its values, then add the rest:
///
/// ```
/// use yurkije::Column;
/// let stocks = [7i64, 0, 5];
/// let valid = [0b101];
/// let column = Column::integers(&stocks).nullable(Some(&valid));
/// assert_eq!(column.rows(), 3);
/// ```
///
/// What does not fit, such as too few bits, is an error when the column is run.
#[derive(Clone, Copy, Debug)]
pub struct Column<'a> {
    pub(crate) raw: raw::Column<'a>,
}

impl<'a> Column<'a> {
    pub(crate) fn new(kind: u32, rows: usize) -> Column<'a> {
        Column { raw: raw::Column { kind, rows, ..Default::default() } }
    }

    /// Whole numbers, one a row.
    pub fn integers<T: Integer>(values: &'a [T]) -> Column<'a> {
        let mut column = Column::new(T::KIND.number(), values.len());
        T::lend(values, &mut column.raw);
        column
    }

    /// Floats, one a row.
    ///
    /// ```
    /// # use yurkije::{Column, Expression, Field, Kind};
    /// let expression = Expression::new("x > 1.5", &[Field::new("x", Kind::F64)])?;
    /// let answers = expression.run(&[Column::floats(&[1.0, 2.0, f64::NAN])], 3)?;
    /// assert_eq!(answers.mask(0)?, [false, true, true]);
    /// # Ok::<(), yurkije::Error>(())
    /// ```
    pub fn floats<T: Float>(values: &'a [T]) -> Column<'a> {
        let mut column = Column::new(T::KIND.number(), values.len());
        T::lend(values, &mut column.raw);
        column
    }

    /// Dates, as days since 1970-01-01.
    pub fn dates(days: &'a [i32]) -> Column<'a> {
        let mut column = Column::new(Kind::Date.number(), days.len());
        column.raw.i32 = days.into();
        column
    }

    /// Timestamps, as microseconds since 1970-01-01T00:00:00.
    pub fn timestamps(microseconds: &'a [i64]) -> Column<'a> {
        let mut column = Column::new(Kind::Timestamp.number(), microseconds.len());
        column.raw.i64 = microseconds.into();
        column
    }

    /// Decimals of so many digits, the last `scale` of them after the point, as whole numbers of the last place.
    ///
    /// ```
    /// # use yurkije::{Column, Expression, Field, Kind};
    /// let expression = Expression::new("price * 2", &[Field::new("price", Kind::Decimal { precision: 12, scale: 2 })])?;
    /// let answers = expression.run(&[Column::decimals(&[1250, -5], 12, 2)], 2)?;
    /// let twice: Vec<String> = answers.decimals(0)?.iter().flatten().map(|price| price.to_string()).collect();
    /// assert_eq!(twice, ["25.00", "-0.10"]);
    /// # Ok::<(), yurkije::Error>(())
    /// ```
    pub fn decimals(units: &'a [i64], precision: u8, scale: u8) -> Column<'a> {
        let mut column = Column::new(Kind::Decimal { precision, scale }.number(), units.len());
        column.raw.i64 = units.into();
        column
    }

    /// Truth values, a bit for each row, least significant first.
    pub fn bools(bits: &'a [u8], rows: usize) -> Column<'a> {
        let mut column = Column::new(Kind::Bool.number(), rows);
        column.raw.bools = bits.into();
        column
    }

    /// Texts by offsets of 32 bits: row `i` is the text of bytes `offsets[i]` to `offsets[i + 1]` of the data.
    pub fn texts(offsets: &'a [i32], data: &'a [u8]) -> Column<'a> {
        Column::by_offsets(Kind::Utf8.number(), offsets, data)
    }

    /// Byte strings by offsets of 32 bits.
    pub fn byte_strings(offsets: &'a [i32], data: &'a [u8]) -> Column<'a> {
        Column::by_offsets(Kind::Binary.number(), offsets, data)
    }

    fn by_offsets(kind: u32, offsets: &'a [i32], data: &'a [u8]) -> Column<'a> {
        let mut column = Column::new(kind, offsets.len().saturating_sub(1));
        column.raw.offsets32 = offsets.into();
        column.raw.data = data.into();
        column
    }

    /// Texts by offsets of 64 bits.
    pub fn large_texts(offsets: &'a [i64], data: &'a [u8]) -> Column<'a> {
        Column::by_large_offsets(LARGE_UTF8, offsets, data)
    }

    /// Byte strings by offsets of 64 bits.
    pub fn large_byte_strings(offsets: &'a [i64], data: &'a [u8]) -> Column<'a> {
        Column::by_large_offsets(LARGE_BINARY, offsets, data)
    }

    fn by_large_offsets(kind: u32, offsets: &'a [i64], data: &'a [u8]) -> Column<'a> {
        let mut column = Column::new(kind, offsets.len().saturating_sub(1));
        column.raw.offsets64 = offsets.into();
        column.raw.data = data.into();
        column
    }

    /// Texts by 16-byte views, little-endian, over buffers in `Buffers`.
    pub fn text_views(views: &'a [[u8; 16]], buffers: &'a Buffers<'a>) -> Column<'a> {
        Column::by_views(UTF8_VIEW, views, buffers)
    }

    /// Byte strings by 16-byte views.
    pub fn byte_string_views(views: &'a [[u8; 16]], buffers: &'a Buffers<'a>) -> Column<'a> {
        Column::by_views(BINARY_VIEW, views, buffers)
    }

    fn by_views(kind: u32, views: &'a [[u8; 16]], buffers: &'a Buffers<'a>) -> Column<'a> {
        let mut column = Column::new(kind, views.len());
        column.raw.views = views.into();
        column.raw.buffers = buffers.0[..].into();
        column
    }

    /// The column as a nullable one: a bit for each row, set where it is not null, least
    /// significant first; or none if no row is null.
    pub fn nullable(mut self, validity: Option<&'a [u8]>) -> Column<'a> {
        self.raw.nullable = true;
        self.raw.validity = validity.unwrap_or(&[]).into();
        self
    }

    /// That many rows from one on: of the values, and of the bits.
    pub fn slice(mut self, first: usize, rows: usize) -> Column<'a> {
        self.raw.offset = self.raw.offset.saturating_add(first);
        self.raw.rows = rows;
        self
    }

    /// How many rows it has.
    pub fn rows(&self) -> usize {
        self.raw.rows
    }
}

/// The buffers that views refer to.
#[derive(Clone, Debug, Default)]
pub struct Buffers<'a>(Vec<raw::Slice<'a, u8>>);

impl<'a> Buffers<'a> {
    /// These buffers, in their order.
    pub fn new(buffers: impl IntoIterator<Item = &'a [u8]>) -> Buffers<'a> {
        Buffers(buffers.into_iter().map(raw::Slice::from).collect())
    }
}
