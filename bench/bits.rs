//! Forms over packed bits.

use crate::columns::{Bits, Bools, Rows, overlapping};
use std::arch::x86_64::*;

/// Lists of bits of one length, whose words are computed together, written once into an
/// uninitialized buffer.
#[inline(always)]
pub fn filled<const M: usize>(
    len: usize,
    said: impl Fn(usize) -> [u64; M],
    last: impl FnOnce() -> [u64; M],
) -> [Bits; M] {
    let count = len.div_ceil(64);
    let mut answers = [(); M].map(|()| Vec::with_capacity(count + 1));
    let outs = answers.each_mut().map(|words| &mut words.spare_capacity_mut()[..count]);
    for k in 0..len / 64 {
        let words = said(k);
        for m in 0..M {
            outs[m][k].write(words[m]);
        }
    }
    if len % 64 > 0 {
        let words = last();
        for m in 0..M {
            outs[m][count - 1].write(words[m]);
        }
    }
    answers.map(|mut words| {
        // SAFETY: that many words were written above
        unsafe { words.set_len(count) };
        words.push(0);
        Bits { words, offset: 0, len }
    })
}

/// The formula for the words of lists of one length, where `read` reads word `k` of a list.
#[inline(always)]
fn written<const N: usize, const M: usize, S: Copy>(
    len: usize,
    sides: [S; N],
    read: impl Fn(S, usize) -> u64,
    formula: impl Fn([u64; N]) -> [u64; M],
) -> [Bits; M] {
    let said = |k| formula(sides.map(|side| read(side, k)));
    filled(len, said, || said(len / 64))
}

/// Whole words if all lists begin with one, else each by two words that overlap.
#[inline(always)]
pub fn by_words<const N: usize, const M: usize>(
    lists: [&Bits; N],
    formula: impl Fn([u64; N]) -> [u64; M],
) -> [Bits; M] {
    let len = lists[0].len;
    let count = len.div_ceil(64);
    if lists.iter().all(|bits| bits.offset == 0) {
        written(len, lists.map(|bits| &bits.words[..count]), |side, k| side[k], formula)
    } else {
        let sides = lists.map(|bits| (&bits.words[..count + 1], bits.offset));
        written(len, sides, |(words, shift), k| overlapping(words, shift, k), formula)
    }
}

/// A word, and the byte after it.
#[inline(always)]
fn by_bytes<const N: usize, const M: usize>(
    lists: [&Bits; N],
    formula: impl Fn([u64; N]) -> [u64; M],
) -> [Bits; M] {
    let len = lists[0].len;
    let sides = lists.map(|bits| (&bits.bytes()[..8 * len.div_ceil(64) + 8], bits.offset));
    let read = |(bytes, shift): (&[u8], usize), k: usize| {
        let low = u64::from_le_bytes(bytes[8 * k..8 * k + 8].try_into().unwrap());
        low >> shift | u64::from(bytes[8 * k + 8]) << 1 << (63 - shift)
    };
    written(len, sides, read, formula)
}

/// The same for one formula.
#[inline(always)]
pub fn by_word<const N: usize>(lists: [&Bits; N], formula: impl Fn([u64; N]) -> u64) -> Bits {
    let [bits] = by_words(lists, |words| [formula(words)]);
    bits
}

pub fn both_valid(left: &Option<Bits>, right: &Option<Bits>) -> Option<Bits> {
    match (left, right) {
        (Some(left), Some(right)) => Some(by_word([left, right], |[l, r]| l & r)),
        (Some(valid), None) | (None, Some(valid)) => Some(valid.clone()),
        (None, None) => None,
    }
}

/// And of two words, and the rows in which it is not null.
#[inline(always)]
pub fn and_words(a: u64, p: u64, b: u64, q: u64) -> [u64; 2] {
    [a & b, (p & q) | (p & !a) | (q & !b)]
}

/// And in one pass for values and nulls; nulls are on both sides or on none.
pub fn and((left, right): &(Bools, Bools)) -> Bools {
    match (&left.valid, &right.valid) {
        (Some(p), Some(q)) => {
            let lists = [&left.values, p, &right.values, q];
            let [values, valid] = by_words(lists, |[a, p, b, q]| and_words(a, p, b, q));
            Rows { values, valid: Some(valid) }
        }
        _ => Rows { values: by_word([&left.values, &right.values], |[a, b]| a & b), valid: None },
    }
}

/// The same, each word read with the byte after it.
pub fn and_by_bytes((left, right): &(Bools, Bools)) -> Bools {
    match (&left.valid, &right.valid) {
        (Some(p), Some(q)) => {
            let lists = [&left.values, p, &right.values, q];
            let [values, valid] = by_bytes(lists, |[a, p, b, q]| and_words(a, p, b, q));
            Rows { values, valid: Some(valid) }
        }
        _ => {
            let [values] = by_bytes([&left.values, &right.values], |[a, b]| [a & b]);
            Rows { values, valid: None }
        }
    }
}

/// The same, values and nulls in a pass each.
pub fn and_by_passes((left, right): &(Bools, Bools)) -> Bools {
    let (a, b) = (&left.values, &right.values);
    let valid = match (&left.valid, &right.valid) {
        (Some(p), Some(q)) => Some(by_word([a, p, b, q], |[a, p, b, q]| and_words(a, p, b, q)[1])),
        _ => None,
    };
    Rows { values: by_word([a, b], |[a, b]| a & b), valid }
}

/// Two words from word `k` on that begin within a word, by two vectors that overlap; a shift by 64 leaves nothing.
#[inline(always)]
fn two_words(words: &[u64], shift: usize, k: usize) -> __m128i {
    assert!(k + 3 <= words.len());
    // SAFETY: there are three words
    unsafe {
        let (low, high) = (words.as_ptr().add(k), words.as_ptr().add(k + 1));
        let (low, high) = (_mm_loadu_si128(low.cast()), _mm_loadu_si128(high.cast()));
        let counts = (_mm_cvtsi64_si128(shift as i64), _mm_cvtsi64_si128(64 - shift as i64));
        _mm_or_si128(_mm_srl_epi64(low, counts.0), _mm_sll_epi64(high, counts.1))
    }
}

/// The words that vectors of two words give: one more word than there are rows for is read of each
/// list, and enough are written to fill the last vector.
#[inline(always)]
fn by_vectors<const N: usize, const M: usize>(
    lists: [&Bits; N],
    formula: impl Fn([__m128i; N]) -> [__m128i; M],
) -> [Bits; M] {
    let len = lists[0].len;
    let count = len.div_ceil(64);
    let mut answers = [(); M].map(|()| Vec::<u64>::with_capacity(count + 2));
    for k in (0..count).step_by(2) {
        let said = if k + 3 <= lists[0].words.len() {
            formula(lists.map(|bits| two_words(&bits.words, bits.offset, k)))
        } else {
            let last = lists.map(|bits| [bits.words[k], bits.words[k + 1], 0]);
            formula(std::array::from_fn(|n| two_words(&last[n], lists[n].offset, 0)))
        };
        for m in 0..M {
            // SAFETY: there is room for `count + 2` words
            unsafe { _mm_storeu_si128(answers[m].as_mut_ptr().add(k).cast(), said[m]) };
        }
    }
    answers.map(|mut words| {
        // SAFETY: that many words were written above
        unsafe { words.set_len(count) };
        words.push(0);
        Bits { words, offset: 0, len }
    })
}

/// And by vectors.
pub fn and_by_vectors((left, right): &(Bools, Bools)) -> Bools {
    // SAFETY: SSE 2
    let and = |x, y| unsafe { _mm_and_si128(x, y) };
    let (a, b) = (&left.values, &right.values);
    match (&left.valid, &right.valid) {
        (Some(p), Some(q)) => {
            // SAFETY: SSE 2
            let [values, valid] = by_vectors([a, p, b, q], |[a, p, b, q]| unsafe {
                let one_is_false = _mm_or_si128(_mm_andnot_si128(a, p), _mm_andnot_si128(b, q));
                [and(a, b), _mm_or_si128(and(p, q), one_is_false)]
            });
            Rows { values, valid: Some(valid) }
        }
        _ => {
            let [values] = by_vectors([a, b], |[a, b]| [and(a, b)]);
            Rows { values, valid: None }
        }
    }
}

/// The words of an iterator over whole words.
fn zipped(words: impl Iterator<Item = u64>, len: usize) -> Bits {
    let count = len.div_ceil(64);
    let mut room = Vec::with_capacity(count + 1);
    room.extend(words.take(count));
    room.push(0);
    Bits { words: room, offset: 0, len }
}

pub fn not(input: &Bools) -> Bools {
    Rows { values: by_word([&input.values], |[word]| !word), valid: input.valid.clone() }
}

pub fn not_by_iterator(input: &Bools) -> Bools {
    let words = input.values.words.iter().map(|word| !word);
    Rows { values: zipped(words, input.values.len), valid: input.valid.clone() }
}

pub fn less((left, right): &(Bools, Bools)) -> Bools {
    let values = by_word([&left.values, &right.values], |[x, y]| !x & y);
    Rows { values, valid: both_valid(&left.valid, &right.valid) }
}

pub fn less_by_iterators((left, right): &(Bools, Bools)) -> Bools {
    let pairs = left.values.words.iter().zip(&right.values.words);
    let values = zipped(pairs.map(|(x, y)| !x & y), left.values.len);
    Rows { values, valid: both_valid(&left.valid, &right.valid) }
}
