//! Results of 64 rows as a word: by a product, and by vectors of x86-64-v2.

use crate::columns::Bits;
use std::arch::x86_64::*;

/// 64 truth values, a byte each, as the bits of a word.
#[inline(always)]
pub fn packed(told: &[bool; 64]) -> u64 {
    let mut word = 0;
    for (at, eight) in told.chunks_exact(8).enumerate() {
        let bytes = u64::from_le_bytes(std::array::from_fn(|i| u8::from(eight[i])));
        word |= (bytes.wrapping_mul(0x0102_0408_1020_4080) >> 56) << (8 * at);
    }
    word
}

/// Bits of whole words, and of the remaining rows.
#[inline(always)]
fn bits_of(words: impl ExactSizeIterator<Item = u64>, rest: impl Iterator<Item = bool>, len: usize) -> Bits {
    let mut room = Vec::with_capacity(words.len() + 2);
    room.extend(words);
    room.push(rest.enumerate().fold(0, |word, (i, told)| word | u64::from(told) << i));
    room.push(0);
    Bits { words: room, offset: 0, len }
}

/// One list: `word` for 64 rows, and `test` for a remaining row.
#[inline(always)]
pub fn worded<T>(rows: &[T], word: impl Fn(&[T; 64]) -> u64, test: impl Fn(&T) -> bool) -> Bits {
    let (blocks, rest) = rows.as_chunks::<64>();
    bits_of(blocks.iter().map(word), rest.iter().map(test), rows.len())
}

/// The same for two lists.
#[inline(always)]
pub fn worded_pairs<T>(
    left: &[T],
    right: &[T],
    word: impl Fn(&[T; 64], &[T; 64]) -> u64,
    test: impl Fn(&T, &T) -> bool,
) -> Bits {
    let ((blocks, rest), (others, other)) = (left.as_chunks::<64>(), right.as_chunks::<64>());
    let words = blocks.iter().zip(others).map(|(l, r)| word(l, r));
    bits_of(words, rest.iter().zip(other).map(|(l, r)| test(l, r)), left.len())
}

/// A test's result for each row, packed by the product.
#[inline(always)]
pub fn tested<T>(rows: &[T], test: impl Fn(&T) -> bool) -> Bits {
    worded(rows, |rows| tested_word(rows, &test), &test)
}

#[inline(always)]
pub fn tested_word<T>(rows: &[T; 64], test: impl Fn(&T) -> bool) -> u64 {
    let mut told = [false; 64];
    for (told, x) in told.iter_mut().zip(rows) {
        *told = test(x);
    }
    packed(&told)
}

/// The same for each pair.
#[inline(always)]
pub fn tested_pairs<T>(left: &[T], right: &[T], test: impl Fn(&T, &T) -> bool) -> Bits {
    let word = |left: &[T; 64], right: &[T; 64]| {
        let mut told = [false; 64];
        for (told, (x, y)) in told.iter_mut().zip(left.iter().zip(right)) {
            *told = test(x, y);
        }
        packed(&told)
    };
    worded_pairs(left, right, word, &test)
}

// ---- vectors: x86-64-v2 has SSE 4.2, for which all is built here

/// Four integers, from `4 * i` on.
#[inline(always)]
pub fn four(rows: &[i32; 64], i: usize) -> __m128i {
    // SAFETY: `i` is below 16
    unsafe { _mm_loadu_si128(rows.as_ptr().add(4 * i).cast()) }
}

#[inline(always)]
pub fn fours(value: i32) -> __m128i {
    // SAFETY: SSE 2
    unsafe { _mm_set1_epi32(value) }
}

#[inline(always)]
pub fn greater_four(left: __m128i, right: __m128i) -> __m128i {
    // SAFETY: SSE 2
    unsafe { _mm_cmpgt_epi32(left, right) }
}

#[inline(always)]
pub fn or_four(left: __m128i, right: __m128i) -> __m128i {
    // SAFETY: SSE 2
    unsafe { _mm_or_si128(left, right) }
}

/// Whether `left - low`, unsigned, is at most the span.
#[inline(always)]
pub fn within_four(rows: __m128i, low: __m128i, span: __m128i) -> __m128i {
    // SAFETY: SSE 4.1
    unsafe {
        let above = _mm_sub_epi32(rows, low);
        _mm_cmpeq_epi32(_mm_min_epu32(above, span), above)
    }
}

/// 16 masks of four rows each, narrowed to bytes before their bits are taken.
#[inline(always)]
pub fn narrowed_word(mask: impl Fn(usize) -> __m128i) -> u64 {
    (0..4).fold(0, |word, i| {
        // SAFETY: SSE 2
        let bits = unsafe {
            let low = _mm_packs_epi32(mask(4 * i), mask(4 * i + 1));
            let high = _mm_packs_epi32(mask(4 * i + 2), mask(4 * i + 3));
            _mm_movemask_epi8(_mm_packs_epi16(low, high))
        };
        word | (bits as u64) << (16 * i)
    })
}
