//! 64 integers of each width compared by vectors: a mask a vector, and the bits of the masks as a
//! word.

use std::arch::x86_64::*;

/// Vectors of one integer type. Unsigned ones are compared as signed ones with the first bit
/// flipped.
pub trait Lanes: Copy + Ord + 'static {
    fn load(rows: &[Self; 64], i: usize) -> __m128i;
    fn splat(value: Self) -> __m128i;
    fn greater(left: __m128i, right: __m128i) -> __m128i;
    /// The word of masks that are narrowed to bytes before their bits are taken.
    fn narrowed(mask: impl Fn(usize) -> __m128i) -> u64;
    /// The word of masks whose bits are taken unchanged.
    fn masked(mask: impl Fn(usize) -> __m128i) -> u64;
    #[cfg(target_feature = "avx2")]
    fn load_wide(rows: &[Self; 64], i: usize) -> __m256i;
    #[cfg(target_feature = "avx2")]
    fn splat_wide(value: Self) -> __m256i;
    #[cfg(target_feature = "avx2")]
    fn greater_wide(left: __m256i, right: __m256i) -> __m256i;
    #[cfg(target_feature = "avx2")]
    fn word_wide(mask: impl Fn(usize) -> __m256i) -> u64;
}

macro_rules! lanes {
    ($t:ty, $turned:expr, $narrowed:ident, $masked:ident, $wide:ident, $set:ident, $set_wide:ident, $greater:ident, $greater_wide:ident) => {
        impl Lanes for $t {
            #[inline(always)]
            fn load(rows: &[$t; 64], i: usize) -> __m128i {
                // SAFETY: there are 16 bytes
                unsafe { _mm_xor_si128(_mm_loadu_si128(rows.as_ptr().cast::<__m128i>().add(i)), $set($turned as _)) }
            }
            #[inline(always)]
            fn splat(value: $t) -> __m128i {
                // SAFETY: SSE 2
                unsafe { $set((value ^ $turned) as _) }
            }
            #[inline(always)]
            fn greater(left: __m128i, right: __m128i) -> __m128i {
                // SAFETY: SSE 4.2
                unsafe { $greater(left, right) }
            }
            #[inline(always)]
            fn narrowed(mask: impl Fn(usize) -> __m128i) -> u64 {
                $narrowed(mask)
            }
            #[inline(always)]
            fn masked(mask: impl Fn(usize) -> __m128i) -> u64 {
                $masked(mask)
            }
            #[cfg(target_feature = "avx2")]
            #[inline(always)]
            fn load_wide(rows: &[$t; 64], i: usize) -> __m256i {
                // SAFETY: there are 32 bytes
                unsafe {
                    let vector = _mm256_loadu_si256(rows.as_ptr().cast::<__m256i>().add(i));
                    _mm256_xor_si256(vector, $set_wide($turned as _))
                }
            }
            #[cfg(target_feature = "avx2")]
            #[inline(always)]
            fn splat_wide(value: $t) -> __m256i {
                // SAFETY: AVX 2
                unsafe { $set_wide((value ^ $turned) as _) }
            }
            #[cfg(target_feature = "avx2")]
            #[inline(always)]
            fn greater_wide(left: __m256i, right: __m256i) -> __m256i {
                // SAFETY: AVX 2
                unsafe { $greater_wide(left, right) }
            }
            #[cfg(target_feature = "avx2")]
            #[inline(always)]
            fn word_wide(mask: impl Fn(usize) -> __m256i) -> u64 {
                $wide(mask)
            }
        }
    };
}

lanes!(i8, 0i8, bytes, bytes, wide_bytes, _mm_set1_epi8, _mm256_set1_epi8, _mm_cmpgt_epi8, _mm256_cmpgt_epi8);
lanes!(u8, 1u8 << 7, bytes, bytes, wide_bytes, _mm_set1_epi8, _mm256_set1_epi8, _mm_cmpgt_epi8, _mm256_cmpgt_epi8);
lanes!(i16, 0i16, pairs, pairs, wide_pairs, _mm_set1_epi16, _mm256_set1_epi16, _mm_cmpgt_epi16, _mm256_cmpgt_epi16);
lanes!(u16, 1u16 << 15, pairs, pairs, wide_pairs, _mm_set1_epi16, _mm256_set1_epi16, _mm_cmpgt_epi16, _mm256_cmpgt_epi16);
lanes!(i32, 0i32, fours, fours_masked, wide_fours, _mm_set1_epi32, _mm256_set1_epi32, _mm_cmpgt_epi32, _mm256_cmpgt_epi32);
lanes!(u32, 1u32 << 31, fours, fours_masked, wide_fours, _mm_set1_epi32, _mm256_set1_epi32, _mm_cmpgt_epi32, _mm256_cmpgt_epi32);
lanes!(i64, 0i64, eights, eights_masked, wide_eights, _mm_set1_epi64x, _mm256_set1_epi64x, _mm_cmpgt_epi64, _mm256_cmpgt_epi64);
lanes!(u64, 1u64 << 63, eights, eights_masked, wide_eights, _mm_set1_epi64x, _mm256_set1_epi64x, _mm_cmpgt_epi64, _mm256_cmpgt_epi64);

/// Bits of that many parts, the first lowest.
#[inline(always)]
fn joined(parts: usize, width: usize, part: impl Fn(usize) -> u64) -> u64 {
    (0..parts).fold(0, |word, i| word | part(i) << (width * i))
}

/// The bits of the bytes of a vector.
#[inline(always)]
fn of_bytes(mask: __m128i) -> u64 {
    // SAFETY: SSE 2
    unsafe { _mm_movemask_epi8(mask) as u64 }
}

#[inline(always)]
fn bytes(mask: impl Fn(usize) -> __m128i) -> u64 {
    joined(4, 16, |i| of_bytes(mask(i)))
}

#[inline(always)]
fn pairs(mask: impl Fn(usize) -> __m128i) -> u64 {
    // SAFETY: SSE 2
    joined(4, 16, |i| of_bytes(unsafe { _mm_packs_epi16(mask(2 * i), mask(2 * i + 1)) }))
}

#[inline(always)]
fn fours(mask: impl Fn(usize) -> __m128i) -> u64 {
    // SAFETY: SSE 2
    pairs(|i| unsafe { _mm_packs_epi32(mask(2 * i), mask(2 * i + 1)) })
}

#[inline(always)]
fn fours_masked(mask: impl Fn(usize) -> __m128i) -> u64 {
    // SAFETY: SSE
    joined(16, 4, |i| unsafe { _mm_movemask_ps(_mm_castsi128_ps(mask(i))) as u64 })
}

/// Of each mask of 64 bits one half is kept.
#[inline(always)]
fn eights(mask: impl Fn(usize) -> __m128i) -> u64 {
    fours(|i| {
        // SAFETY: SSE
        unsafe {
            let [low, high] = [mask(2 * i), mask(2 * i + 1)].map(|mask| _mm_castsi128_ps(mask));
            _mm_castps_si128(_mm_shuffle_ps::<0b11_01_11_01>(low, high))
        }
    })
}

#[inline(always)]
fn eights_masked(mask: impl Fn(usize) -> __m128i) -> u64 {
    // SAFETY: SSE 2
    joined(32, 2, |i| unsafe { _mm_movemask_pd(_mm_castsi128_pd(mask(i))) as u64 })
}

#[cfg(target_feature = "avx2")]
#[inline(always)]
fn wide_bytes(mask: impl Fn(usize) -> __m256i) -> u64 {
    // SAFETY: AVX 2
    joined(2, 32, |i| u64::from(unsafe { _mm256_movemask_epi8(mask(i)) } as u32))
}

/// The two halves of each vector are packed next to those of the other, so quarters are exchanged.
#[cfg(target_feature = "avx2")]
#[inline(always)]
fn wide_pairs(mask: impl Fn(usize) -> __m256i) -> u64 {
    // SAFETY: AVX 2
    wide_bytes(|i| unsafe { _mm256_permute4x64_epi64::<0b11_01_10_00>(_mm256_packs_epi16(mask(2 * i), mask(2 * i + 1))) })
}

#[cfg(target_feature = "avx2")]
#[inline(always)]
fn wide_fours(mask: impl Fn(usize) -> __m256i) -> u64 {
    // SAFETY: AVX
    joined(8, 8, |i| unsafe { _mm256_movemask_ps(_mm256_castsi256_ps(mask(i))) as u64 })
}

#[cfg(target_feature = "avx2")]
#[inline(always)]
fn wide_eights(mask: impl Fn(usize) -> __m256i) -> u64 {
    // SAFETY: AVX
    joined(16, 4, |i| unsafe { _mm256_movemask_pd(_mm256_castsi256_pd(mask(i))) as u64 })
}
