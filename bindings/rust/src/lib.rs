//! Expressions over columns: `price * stock > 100 and name like 'a%'`, with SQL's three-valued logic, checked arithmetic,
//! BETWEEN and LIKE, over columns in Arrow's layout. What they answer is proved; this crate is a safe wrapper of the C
//! library, which `tools/install` puts where `YURKIJE_PREFIX` or pkg-config says.
//!
//! ```
//! use yurkije::{Column, ColumnBuf, Expression, Field, Kind};
//!
//! # fn main() -> Result<(), yurkije::Error> {
//! let fields = [Field::new("price", Kind::I64), Field::nullable("stock", Kind::I64)];
//! let expression = Expression::new("price * stock as worth, price > 10 as dear", &fields)?;
//!
//! let prices = [3i64, 12];
//! let stocks = ColumnBuf::integers([Some(7i64), None]);
//! let answers = expression.run(&[Column::integers(&prices), stocks.column()], 2)?;
//!
//! let worth: Vec<Option<i64>> = answers.integers(0)?.iter().collect();
//! assert_eq!(worth, [Some(21), None]);
//! assert_eq!(answers.select(1)?, [1]);
//!
//! let refused = Expression::new("prcie > 10", &fields).unwrap_err();
//! assert_eq!((refused.number(), refused.name(), refused.place().map(|place| place.line)), (11, "ScopeMismatch", Some(1)));
//! # Ok(())
//! # }
//! ```
//!
//! Columns are borrowed for a call and read where they lie or, for other calls than
//! docs/EMBEDDING.md lists, copied once; answers are copied out. Threads share an [`Expression`] and its [`Answers`], and pass them on to one another: both are `Send` and `Sync`. Batches with texts run fastest at some 8,192 rows.
#![allow(clippy::unit_arg)]

mod answers;
mod column;
mod error;
mod expression;
mod owned;
mod pruning;
mod raw;

pub use answers::{Answers, Bools, ByteStrings, Decimal, Decimals, Integers};
pub use column::{Buffers, Column, Field, Float, Integer, Kind, Type};
pub use error::{Error, Place, Status, STATUSES};
pub use expression::{is_compatible, version, Expression};
pub use owned::{ColumnBuf, Offset, Stored, Truth};
pub use pruning::{Pruned, Statistics, Verdict};
