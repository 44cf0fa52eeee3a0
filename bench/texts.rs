//! Forms over texts: strings and views, compared by the library and by words.

use crate::bits::both_valid;
use crate::columns::{Bits, Bools, INLINE, Rows, TextViews, Texts, View, Views};
use crate::vectors::{tested, tested_pairs};
use std::arch::x86_64::*;
use std::cmp::Ordering;

// ---- strings

#[inline(always)]
fn of_strings((left, right): &(Texts, Texts), test: impl Fn(&String, &String) -> bool) -> Bools {
    let values = tested_pairs(&left.values, &right.values, test);
    Rows { values, valid: both_valid(&left.valid, &right.valid) }
}

#[inline(always)]
pub fn of_string_column(texts: &Texts, test: impl Fn(&String) -> bool) -> Bools {
    Rows { values: tested(&texts.values, test), valid: texts.valid.clone() }
}

pub fn equal_texts(pair: &(Texts, Texts)) -> Bools {
    of_strings(pair, |x, y| x == y)
}

pub fn less_texts(pair: &(Texts, Texts)) -> Bools {
    of_strings(pair, |x, y| x < y)
}

pub fn equal_texts_by_words(pair: &(Texts, Texts)) -> Bools {
    of_strings(pair, |x, y| are_same(x.as_bytes(), y.as_bytes()))
}

pub fn less_texts_by_words(pair: &(Texts, Texts)) -> Bools {
    of_strings(pair, |x, y| order(x.as_bytes(), y.as_bytes()).is_lt())
}

/// Eight bytes of a text that has them.
#[inline(always)]
pub fn eight(bytes: &[u8], at: usize) -> u64 {
    // SAFETY: callers check that `at + 8` is at most the length
    unsafe { bytes.as_ptr().add(at).cast::<u64>().read_unaligned() }
}

/// By words of eight bytes; instead of a remainder, the last eight again.
#[inline(always)]
pub fn are_same(left: &[u8], right: &[u8]) -> bool {
    let len = left.len();
    if len != right.len() {
        return false;
    }
    if len < 8 {
        return left == right;
    }
    (0..len / 8).all(|i| eight(left, 8 * i) == eight(right, 8 * i)) && eight(left, len - 8) == eight(right, len - 8)
}

/// The same; of different words, the first byte counts most.
#[inline(always)]
pub fn order(left: &[u8], right: &[u8]) -> Ordering {
    let len = left.len().min(right.len());
    if len < 8 {
        return left.cmp(right);
    }
    for at in (0..len / 8).map(|i| 8 * i).chain([len - 8]) {
        let (l, r) = (eight(left, at), eight(right, at));
        if l != r {
            return l.swap_bytes().cmp(&r.swap_bytes());
        }
    }
    left.len().cmp(&right.len())
}

// ---- views

#[inline(always)]
fn of_views((left, right): &(TextViews, TextViews), test: impl Fn(&View, &View) -> bool) -> Bools {
    let values = tested_pairs(left.values.rows(), right.values.rows(), test);
    Rows { values, valid: both_valid(&left.valid, &right.valid) }
}

#[inline(always)]
pub fn of_view_column(texts: &TextViews, test: impl Fn(&View) -> bool) -> Bools {
    Rows { values: tested(texts.values.rows(), test), valid: texts.valid.clone() }
}

/// Whether texts of two columns are the same: by length and first four bytes, then by `tails` for
/// the rest.
#[inline(always)]
fn same_views(columns: [&Views; 2], [x, y]: [&View; 2], same: impl Fn(&[u8], &[u8]) -> bool) -> bool {
    if x.head != y.head {
        return false;
    }
    if x.len() <= INLINE { x.tail == y.tail } else { same(columns[0].bytes(x), columns[1].bytes(y)) }
}

/// By the first four bytes; then, if both are inlined, by the other eight and the lengths.
#[inline(always)]
fn order_views(columns: [&Views; 2], [x, y]: [&View; 2], order: impl Fn(&[u8], &[u8]) -> Ordering) -> Ordering {
    let (first, other) = (x.prefix(), y.prefix());
    if first != other {
        return first.cmp(&other);
    }
    if x.len() <= INLINE && y.len() <= INLINE {
        let key = |view: &View| (view.tail.swap_bytes(), view.len());
        return key(x).cmp(&key(y));
    }
    order(columns[0].bytes(x), columns[1].bytes(y))
}

/// The 16 bytes of an inlined text, as one number with its order; without a branch.
#[inline(always)]
fn key(view: &View) -> u128 {
    u128::from(view.prefix()) << 96 | u128::from(view.tail.swap_bytes()) << 32 | view.len() as u128
}

#[inline(always)]
fn less_by_keys(columns: [&Views; 2], [x, y]: [&View; 2]) -> bool {
    if (x.len() <= INLINE) & (y.len() <= INLINE) {
        return key(x) < key(y);
    }
    order_views(columns, [x, y], order).is_lt()
}

pub fn equal_views(pair: &(TextViews, TextViews)) -> Bools {
    let columns = [&pair.0.values, &pair.1.values];
    of_views(pair, |x, y| same_views(columns, [x, y], |x, y| x == y))
}

pub fn equal_views_by_words(pair: &(TextViews, TextViews)) -> Bools {
    let columns = [&pair.0.values, &pair.1.values];
    of_views(pair, |x, y| same_views(columns, [x, y], are_same))
}

pub fn less_views(pair: &(TextViews, TextViews)) -> Bools {
    let columns = [&pair.0.values, &pair.1.values];
    of_views(pair, |x, y| order_views(columns, [x, y], <[u8]>::cmp).is_lt())
}

pub fn less_views_by_words(pair: &(TextViews, TextViews)) -> Bools {
    let columns = [&pair.0.values, &pair.1.values];
    of_views(pair, |x, y| less_by_keys(columns, [x, y]))
}

/// One text, as the views of a column are.
fn lone(text: &str) -> Views {
    Views::of(&[text.into()])
}

pub fn equal_one_view(texts: &TextViews, constant: &str) -> Bools {
    let one = lone(constant);
    let (columns, own) = ([&texts.values, &one], &one.rows()[0]);
    of_view_column(texts, |x| same_views(columns, [x, own], are_same))
}

/// Both words of the view at once, if the constant is inlined.
pub fn equal_one_view_at_once(texts: &TextViews, constant: &str) -> Bools {
    if constant.len() > INLINE {
        return equal_one_view(texts, constant);
    }
    let one = lone(constant).rows()[0];
    of_view_column(texts, |x| (x.head == one.head) & (x.tail == one.tail))
}

pub fn less_one_view(texts: &TextViews, constant: &str) -> Bools {
    let one = lone(constant);
    let (columns, own) = ([&texts.values, &one], &one.rows()[0]);
    of_view_column(texts, |x| order_views(columns, [x, own], <[u8]>::cmp).is_lt())
}

pub fn less_one_view_by_words(texts: &TextViews, constant: &str) -> Bools {
    let one = lone(constant);
    let (columns, own) = ([&texts.values, &one], &one.rows()[0]);
    of_view_column(texts, |x| less_by_keys(columns, [x, own]))
}

pub fn between_views(texts: &TextViews, lower: &str, upper: &str) -> Bools {
    let (low, high) = (lone(lower), lone(upper));
    let (lows, highs) = (&low.rows()[0], &high.rows()[0]);
    of_view_column(texts, |x| {
        let is_below = order_views([&texts.values, &low], [x, lows], <[u8]>::cmp).is_lt();
        !is_below && order_views([&texts.values, &high], [x, highs], <[u8]>::cmp).is_le()
    })
}

pub fn between_views_by_words(texts: &TextViews, lower: &str, upper: &str) -> Bools {
    let (low, high) = (lone(lower), lone(upper));
    let (lows, highs) = (&low.rows()[0], &high.rows()[0]);
    of_view_column(texts, |x| {
        !less_by_keys([&texts.values, &low], [x, lows]) & !less_by_keys([&high, &texts.values], [highs, x])
    })
}

// ---- views by vectors

/// How two long texts compare whose first four bytes are the same: the first different one of 16
/// bytes decides. Enough bytes follow each buffer to read past a text.
#[inline(always)]
fn order_tails(columns: [&Views; 2], [x, y]: [&View; 2]) -> Ordering {
    let len = x.len().min(y.len());
    let (left, right) = (columns[0].start(x), columns[1].start(y));
    for at in (4..len).step_by(16) {
        // SAFETY: as above
        let same = unsafe {
            let bytes = |start: *const u8| _mm_loadu_si128(start.add(at).cast());
            _mm_movemask_epi8(_mm_cmpeq_epi8(bytes(left), bytes(right)))
        };
        let place = at + (!same).trailing_zeros() as usize;
        if same != 0xffff && place < len {
            // SAFETY: a byte of both texts
            return unsafe { (*left.add(place)).cmp(&*right.add(place)) };
        }
    }
    x.len().cmp(&y.len())
}

/// By the first four bytes, then by the other eight if both are inlined, else by vectors.
#[inline(always)]
fn order_by_vectors(columns: [&Views; 2], [x, y]: [&View; 2]) -> Ordering {
    let (first, other) = (x.prefix(), y.prefix());
    if first != other {
        return first.cmp(&other);
    }
    if (x.len() <= INLINE) & (y.len() <= INLINE) {
        return (x.tail.swap_bytes(), x.len()).cmp(&(y.tail.swap_bytes(), y.len()));
    }
    order_tails(columns, [x, y])
}

#[inline(always)]
fn are_same_by_vectors(columns: [&Views; 2], [x, y]: [&View; 2]) -> bool {
    x.head == y.head && if x.len() <= INLINE { x.tail == y.tail } else { order_tails(columns, [x, y]).is_eq() }
}

pub fn equal_views_by_vectors(pair: &(TextViews, TextViews)) -> Bools {
    let columns = [&pair.0.values, &pair.1.values];
    of_views(pair, |x, y| are_same_by_vectors(columns, [x, y]))
}

pub fn less_views_by_vectors(pair: &(TextViews, TextViews)) -> Bools {
    let columns = [&pair.0.values, &pair.1.values];
    of_views(pair, |x, y| order_by_vectors(columns, [x, y]).is_lt())
}

pub fn equal_one_view_by_vectors(texts: &TextViews, constant: &str) -> Bools {
    let one = lone(constant);
    of_view_column(texts, |x| are_same_by_vectors([&texts.values, &one], [x, &one.rows()[0]]))
}

pub fn less_one_view_by_vectors(texts: &TextViews, constant: &str) -> Bools {
    let one = lone(constant);
    of_view_column(texts, |x| order_by_vectors([&texts.values, &one], [x, &one.rows()[0]]).is_lt())
}

pub fn between_views_by_vectors(texts: &TextViews, lower: &str, upper: &str) -> Bools {
    let (low, high) = (lone(lower), lone(upper));
    of_view_column(texts, |x| {
        let is_above = order_by_vectors([&low, &texts.values], [&low.rows()[0], x]).is_le();
        is_above && order_by_vectors([&texts.values, &high], [x, &high.rows()[0]]).is_le()
    })
}

// ---- rows of bytes, of either kind of column

/// A test's result for the bytes of each row.
pub trait ByteRows {
    fn told(&self, test: impl Fn(&[u8]) -> bool) -> Bits;
}

impl ByteRows for Vec<String> {
    #[inline(always)]
    fn told(&self, test: impl Fn(&[u8]) -> bool) -> Bits {
        tested(self, |text| test(text.as_bytes()))
    }
}

impl ByteRows for Views {
    #[inline(always)]
    fn told(&self, test: impl Fn(&[u8]) -> bool) -> Bits {
        tested(self.rows(), |view| test(self.bytes(view)))
    }
}
