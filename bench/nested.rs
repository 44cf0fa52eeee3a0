//! Records and lists compared.

use crate::bits::both_valid;
use crate::columns::{Bits, Bools, Rows};
use crate::vectors::{packed, tested_pairs};

type Longs = Rows<Vec<i64>>;

/// Records of two integers, a list for each field; only the first can be null.
pub type Records = Rows<(Longs, Vec<i64>)>;

/// Concatenated lists of integers, and where each ends.
pub type Lists = Rows<(Longs, Vec<usize>)>;

fn compared<V>((l, r): &(Rows<V>, Rows<V>), bits: impl Fn(&V, &V) -> Bits) -> Bools {
    Rows { values: bits(&l.values, &r.values), valid: both_valid(&l.valid, &r.valid) }
}

/// A bit for each row, 64 at a time.
#[inline(always)]
fn told(rows: usize, is_less: impl Fn(usize) -> bool) -> Bits {
    let mut words = Vec::with_capacity(rows / 64 + 2);
    for k in 0..rows / 64 {
        words.push(packed(&std::array::from_fn(|i| is_less(64 * k + i))));
    }
    let rest = 64 * (rows / 64)..rows;
    words.push(rest.enumerate().fold(0, |word, (i, row)| word | u64::from(is_less(row)) << i));
    words.push(0);
    Bits { words, offset: 0, len: rows }
}

/// Null is below all integers.
#[inline(always)]
fn at(list: &Longs, i: usize) -> Option<i64> {
    list.valid.as_ref().is_none_or(|valid| valid.bit(i)).then(|| list.values[i])
}

/// Row by row, each a pair.
pub fn less_by_loop(pair: &(Records, Records)) -> Bools {
    compared(pair, |(a, b), (c, d)| {
        let rows = a.values.len();
        assert!([b.len(), c.values.len(), d.len()] == [rows; 3]);
        if a.valid.is_none() {
            return told(rows, |i| (a.values[i], b[i]) < (c.values[i], d[i]));
        }
        told(rows, |i| (at(a, i), b[i]) < (at(c, i), d[i]))
    })
}

/// A pass over the first fields and one over the second, joined by words: less where the first is, or where it is equal and
/// the second is less.
pub fn less_by_fields(pair: &(Records, Records)) -> Bools {
    compared(pair, |(a, b), (c, d)| {
        let mut below = tested_pairs(&a.values, &c.values, |x, y| x < y);
        let equal = tested_pairs(&a.values, &c.values, |x, y| x == y);
        let second = tested_pairs(b, d, |x, y| x < y);
        let valid = |side: &Longs, k: usize| side.valid.as_ref().map_or(u64::MAX, |valid| valid.words[k]);
        for k in 0..b.len().div_ceil(64) {
            let (p, q) = (valid(a, k), valid(c, k));
            let first = p & q & below.words[k] | !p & q;
            below.words[k] = first | (p & q & equal.words[k] | !p & !q) & second.words[k];
        }
        below
    })
}

/// The standard library's comparison of the slices of each row; with nulls, of lists of options.
pub fn less_by_slices(pair: &(Lists, Lists)) -> Bools {
    compared(pair, |(left, ends), (right, others)| {
        let range = |ends: &[usize], i: usize| if i == 0 { 0 } else { ends[i - 1] }..ends[i];
        if left.valid.is_none() {
            return told(ends.len(), |i| left.values[range(ends, i)] < right.values[range(others, i)]);
        }
        told(ends.len(), |i| {
            let (l, r) = (range(ends, i), range(others, i));
            l.map(|j| at(left, j)).lt(r.map(|j| at(right, j)))
        })
    })
}

/// The same for arrays of known length.
pub fn less_by_arrays(pair: &(Lists, Lists)) -> Bools {
    compared(pair, |(left, _), (right, _)| {
        if left.valid.is_none() {
            return tested_pairs(left.values.as_chunks::<4>().0, right.values.as_chunks::<4>().0, |x, y| x < y);
        }
        let four = |side: &Longs, i: usize| std::array::from_fn::<_, 4, _>(|j| at(side, 4 * i + j));
        told(left.values.len() / 4, |i| four(left, i) < four(right, i))
    })
}
