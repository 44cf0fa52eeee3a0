//! Forms over integers: comparisons, Between, and the tree.

use crate::bits::{and_words, both_valid, by_word, by_words, filled};
use crate::columns::{Bits, Bools, Ints, Rows};
use crate::lanes::Lanes;
use crate::vectors::*;

pub type Pair<T> = (Rows<Vec<T>>, Rows<Vec<T>>);

// ---- comparisons

#[inline(always)]
fn compared<T>((left, right): &Pair<T>, bits: impl Fn(&[T], &[T]) -> Bits) -> Bools {
    Rows { values: bits(&left.values, &right.values), valid: both_valid(&left.valid, &right.valid) }
}

#[inline(always)]
fn compared_one<T>((left, _): &Pair<T>, bits: impl Fn(&[T]) -> Bits) -> Bools {
    Rows { values: bits(&left.values), valid: left.valid.clone() }
}

pub fn less<T: Ord>(pair: &Pair<T>) -> Bools {
    compared(pair, |l, r| tested_pairs(l, r, |x, y| x < y))
}

pub fn less_one<T: Ord>(pair: &Pair<T>, constant: T) -> Bools {
    compared_one(pair, |l| tested(l, |x| *x < constant))
}

pub fn less_narrowed<T: Lanes>(pair: &Pair<T>) -> Bools {
    let word = |l: &[T; 64], r: &[T; 64]| T::narrowed(|i| T::greater(T::load(r, i), T::load(l, i)));
    compared(pair, |l, r| worded_pairs(l, r, word, |x, y| x < y))
}

pub fn less_masked<T: Lanes>(pair: &Pair<T>) -> Bools {
    let word = |l: &[T; 64], r: &[T; 64]| T::masked(|i| T::greater(T::load(r, i), T::load(l, i)));
    compared(pair, |l, r| worded_pairs(l, r, word, |x, y| x < y))
}

pub fn less_one_narrowed<T: Lanes>(pair: &Pair<T>, constant: T) -> Bools {
    let right = T::splat(constant);
    let word = |l: &[T; 64]| T::narrowed(|i| T::greater(right, T::load(l, i)));
    compared_one(pair, |l| worded(l, word, |x| *x < constant))
}

pub fn less_one_masked<T: Lanes>(pair: &Pair<T>, constant: T) -> Bools {
    let right = T::splat(constant);
    let word = |l: &[T; 64]| T::masked(|i| T::greater(right, T::load(l, i)));
    compared_one(pair, |l| worded(l, word, |x| *x < constant))
}

#[cfg(target_feature = "avx2")]
pub fn less_wide<T: Lanes>(pair: &Pair<T>) -> Bools {
    let word = |l: &[T; 64], r: &[T; 64]| T::word_wide(|i| T::greater_wide(T::load_wide(r, i), T::load_wide(l, i)));
    compared(pair, |l, r| worded_pairs(l, r, word, |x, y| x < y))
}

#[cfg(target_feature = "avx2")]
pub fn less_one_wide<T: Lanes>(pair: &Pair<T>, constant: T) -> Bools {
    let right = T::splat_wide(constant);
    let word = |l: &[T; 64]| T::word_wide(|i| T::greater_wide(right, T::load_wide(l, i)));
    compared_one(pair, |l| worded(l, word, |x| *x < constant))
}

// ---- Between, with inclusive bounds

type Bounded = (Ints, Ints, Ints);

/// The words of the result, and of the rows in which it is not null: a row with one null bound can
/// be false.
#[inline(always)]
fn bounded_words([under, over]: [u64; 2], [p, q, r]: [u64; 3]) -> [u64; 2] {
    [!(under | over), p & ((q & r) | (q & under) | (r & over))]
}

/// A pass for each comparison, and one for the nulls.
pub fn between_by_passes((array, lower, upper): &Bounded) -> Bools {
    let under = tested_pairs(&array.values, &lower.values, |x, low| x < low);
    let over = tested_pairs(&array.values, &upper.values, |x, high| x > high);
    match (&array.valid, &lower.valid, &upper.valid) {
        (Some(p), Some(q), Some(r)) => {
            let lists = [&under, &over, p, q, r];
            let [values, valid] = by_words(lists, |[under, over, p, q, r]| bounded_words([under, over], [p, q, r]));
            Rows { values, valid: Some(valid) }
        }
        _ => Rows { values: by_word([&under, &over], |[under, over]| !(under | over)), valid: None },
    }
}

/// Rows from row `64 * k` on; past the end, zeros.
fn block<T: Copy + Default>(rows: &[T], k: usize) -> [T; 64] {
    let mut block = [T::default(); 64];
    let rest = &rows[64 * k..];
    block[..rest.len()].copy_from_slice(rest);
    block
}

/// One pass, where `outside` is which of 64 rows are below their lower bounds, and which above the
/// upper.
#[inline(always)]
fn between_in_one_pass(
    (array, lower, upper): &Bounded,
    outside: impl Fn([&[i32; 64]; 3]) -> [u64; 2],
) -> Bools {
    let lists = [&array.values, &lower.values, &upper.values];
    let len = array.values.len();
    let blocks = lists.map(|list| &list.as_chunks::<64>().0[..len / 64]);
    let told = |k: usize| outside(blocks.map(|blocks| &blocks[k]));
    let last = || outside(lists.map(|list| block(list, len / 64)).each_ref());
    if let (Some(p), Some(q), Some(r)) = (&array.valid, &lower.valid, &upper.valid) {
        let words = [p, q, r].map(|bits| &bits.words[..len / 64 + 1]);
        let valid = |k: usize| words.map(|words| words[k]);
        let said = |k| bounded_words(told(k), valid(k));
        let [values, valid] = filled(len, said, || bounded_words(last(), valid(len / 64)));
        return Rows { values, valid: Some(valid) };
    }
    let within = |[under, over]: [u64; 2]| [!(under | over)];
    let [values] = filled(len, |k| within(told(k)), || within(last()));
    Rows { values, valid: None }
}

pub fn between_by_products(sides: &Bounded) -> Bools {
    between_in_one_pass(sides, |[x, low, high]| {
        let told = |test: fn(i32, i32) -> bool, bounds: &[i32; 64]| {
            let pairs: [bool; 64] = std::array::from_fn(|i| test(x[i], bounds[i]));
            packed(&pairs)
        };
        [told(|x, low| x < low, low), told(|x, high| x > high, high)]
    })
}

pub fn between_by_vectors(sides: &Bounded) -> Bools {
    between_in_one_pass(sides, |[x, low, high]| {
        [
            narrowed_word(|i| greater_four(four(low, i), four(x, i))),
            narrowed_word(|i| greater_four(four(x, i), four(high, i))),
        ]
    })
}

#[cfg(target_feature = "avx2")]
pub fn between_by_wide_vectors(sides: &Bounded) -> Bools {
    between_in_one_pass(sides, |[x, low, high]| {
        let mask = |l, r| i32::word_wide(|i| i32::greater_wide(i32::load_wide(l, i), i32::load_wide(r, i)));
        [mask(low, x), mask(x, high)]
    })
}

/// Without nulls, the results are joined before they are narrowed.
pub fn between_by_joined_vectors(sides: &Bounded) -> Bools {
    if sides.0.valid.is_some() {
        return between_by_vectors(sides);
    }
    between_in_one_pass(sides, |[x, low, high]| {
        let outside = |i| {
            let x = four(x, i);
            or_four(greater_four(four(low, i), x), greater_four(x, four(high, i)))
        };
        [narrowed_word(outside), 0]
    })
}

fn bounds(sides: &Bounded) -> (i32, i32) {
    (sides.1.values[0], sides.2.values[0])
}

#[inline(always)]
fn tested_ints(array: &Ints, word: impl Fn(&[i32; 64]) -> u64, test: impl Fn(&i32) -> bool) -> Bools {
    Rows { values: worded(&array.values, word, test), valid: array.valid.clone() }
}

pub fn between_constants(sides: &Bounded) -> Bools {
    let (low, high) = bounds(sides);
    let test = |x: &i32| (low <= *x) & (*x <= high);
    tested_ints(&sides.0, |rows| tested_word(rows, test), test)
}

/// One unsigned comparison.
pub fn between_constants_by_span(sides: &Bounded) -> Bools {
    let (low, high) = bounds(sides);
    let span = high.wrapping_sub(low) as u32;
    let test = |x: &i32| x.wrapping_sub(low) as u32 <= span;
    tested_ints(&sides.0, |rows| tested_word(rows, test), test)
}

pub fn between_constants_by_vectors(sides: &Bounded) -> Bools {
    let (low, high) = bounds(sides);
    let (lows, highs) = (fours(low), fours(high));
    let word = |rows: &[i32; 64]| {
        !narrowed_word(|i| or_four(greater_four(lows, four(rows, i)), greater_four(four(rows, i), highs)))
    };
    tested_ints(&sides.0, word, |x| (low <= *x) & (*x <= high))
}

#[cfg(target_feature = "avx2")]
pub fn between_constants_by_wide_vectors(sides: &Bounded) -> Bools {
    let (low, high) = bounds(sides);
    let (lows, highs) = (i32::splat_wide(low), i32::splat_wide(high));
    let word = |rows: &[i32; 64]| {
        let mask = |i| (i32::greater_wide(lows, i32::load_wide(rows, i)), i32::greater_wide(i32::load_wide(rows, i), highs));
        // SAFETY: AVX 2
        !i32::word_wide(|i| unsafe { std::arch::x86_64::_mm256_or_si256(mask(i).0, mask(i).1) })
    };
    tested_ints(&sides.0, word, |x| (low <= *x) & (*x <= high))
}

pub fn between_constants_by_vector_spans(sides: &Bounded) -> Bools {
    let (low, high) = bounds(sides);
    let (lows, spans) = (fours(low), fours(high.wrapping_sub(low)));
    let word = |rows: &[i32; 64]| narrowed_word(|i| within_four(four(rows, i), lows, spans));
    tested_ints(&sides.0, word, |x| (low <= *x) & (*x <= high))
}

// ---- (a < 10 and b > 5) or not c

type Sides = (Ints, Ints, Bools);

/// The tree's result for 64 rows, and the rows in which it is not null.
#[inline(always)]
fn tree_words([below, p, above, q, c, r]: [u64; 6]) -> [u64; 2] {
    let [both, valid] = and_words(below, p, above, q);
    [both | !c, (valid & r) | (valid & both) | (r & !c)]
}

fn below_ten(rows: &[i32; 64]) -> u64 {
    narrowed_word(|i| greater_four(fours(10), four(rows, i)))
}

fn above_five(rows: &[i32; 64]) -> u64 {
    narrowed_word(|i| greater_four(four(rows, i), fours(5)))
}

/// Both comparisons and the words of the rest, an operator at a time.
#[inline(always)]
fn tree_by_operators((a, b, c): &Sides, below: impl Fn(&[i32]) -> Bits, above: impl Fn(&[i32]) -> Bits) -> Bools {
    let below = Rows { values: below(&a.values), valid: a.valid.clone() };
    let above = Rows { values: above(&b.values), valid: b.valid.clone() };
    let both = crate::bits::and(&(below, above));
    let not = crate::bits::not(c);
    let (x, y) = (&both.values, &not.values);
    match (&both.valid, &not.valid) {
        (Some(p), Some(q)) => {
            let [values, valid] =
                by_words([x, p, y, q], |[x, p, y, q]| [x | y, (p & q) | (p & x) | (q & y)]);
            Rows { values, valid: Some(valid) }
        }
        _ => Rows { values: by_word([x, y], |[x, y]| x | y), valid: None },
    }
}

pub fn tree_by_products(sides: &Sides) -> Bools {
    tree_by_operators(sides, |rows| tested(rows, |x| *x < 10), |rows| tested(rows, |x| *x > 5))
}

pub fn tree_by_vectors(sides: &Sides) -> Bools {
    let below = |rows: &[i32]| worded(rows, below_ten, |x| *x < 10);
    tree_by_operators(sides, below, |rows| worded(rows, above_five, |x| *x > 5))
}

/// One pass over the columns.
#[inline(always)]
fn tree_in_one_pass(
    (a, b, c): &Sides,
    below: impl Fn(&[i32; 64]) -> u64,
    above: impl Fn(&[i32; 64]) -> u64,
) -> Bools {
    let len = a.values.len();
    let (lefts, rights) = (&a.values.as_chunks::<64>().0[..len / 64], &b.values.as_chunks::<64>().0[..len / 64]);
    let told = |k: usize| (below(&lefts[k]), above(&rights[k]));
    let last = || (below(&block(&a.values, len / 64)), above(&block(&b.values, len / 64)));
    let third = &c.values.words[..len / 64 + 1];
    if let (Some(p), Some(q), Some(r)) = (&a.valid, &b.valid, &c.valid) {
        let words = [p, q, r].map(|bits| &bits.words[..len / 64 + 1]);
        let said = |(below, above), k: usize| {
            let [p, q, r] = words.map(|words| words[k]);
            tree_words([below, p, above, q, third[k], r])
        };
        let [values, valid] = filled(len, |k| said(told(k), k), || said(last(), len / 64));
        return Rows { values, valid: Some(valid) };
    }
    let said = |(below, above): (u64, u64), k: usize| [(below & above) | !third[k]];
    let [values] = filled(len, |k| said(told(k), k), || said(last(), len / 64));
    Rows { values, valid: None }
}

pub fn tree_in_one_pass_by_products(sides: &Sides) -> Bools {
    tree_in_one_pass(sides, |rows| tested_word(rows, |x| *x < 10), |rows| tested_word(rows, |x| *x > 5))
}

pub fn tree_in_one_pass_by_vectors(sides: &Sides) -> Bools {
    tree_in_one_pass(sides, below_ten, above_five)
}

#[cfg(target_feature = "avx2")]
pub fn tree_in_one_pass_by_wide_vectors(sides: &Sides) -> Bools {
    let below = |rows: &[i32; 64]| i32::word_wide(|i| i32::greater_wide(i32::splat_wide(10), i32::load_wide(rows, i)));
    let above = |rows: &[i32; 64]| i32::word_wide(|i| i32::greater_wide(i32::load_wide(rows, i), i32::splat_wide(5)));
    tree_in_one_pass(sides, below, above)
}
