//! Forms of arithmetic over integers of each width, and of constants on its right.

use crate::bits::both_valid;
use crate::columns::Rows;
use crate::integers::Pair;
use crate::lanes::Lanes;

type Answered<T> = Rows<Vec<T>>;

/// A replacement for division by one number: the product with an inverse, and a shift.
#[derive(Clone, Copy)]
pub struct Inverse<T> {
    factor: T,
    shift: u32,
}

/// An integer type, with its operators in forms that become vector code, or not. A truth value with
/// a result is whether the type does not hold it.
pub trait Number: Lanes + Default + std::ops::BitOrAssign {
    fn sum(self, other: Self) -> (Self, bool);
    /// The sum, and bits of which the first is set if the type does not hold it.
    fn sum_by_signs(self, other: Self) -> (Self, Self);
    fn sum_by_saturation(self, other: Self) -> (Self, bool);
    fn checked_sum(self, other: Self) -> Option<Self>;
    fn product(self, other: Self) -> (Self, bool);
    fn product_by_width(self, other: Self) -> (Self, bool);
    /// The product, and bits of which some are set if the type does not hold it.
    fn product_by_halves(self, other: Self) -> (Self, Self);
    fn has_first_bit(self) -> bool;
    fn checked_product(self, other: Self) -> Option<Self>;
    fn quotient(self, other: Self) -> (Self, bool);
    fn checked_quotient(self, other: Self) -> Option<Self>;
    /// By a float that holds each quotient closely enough; a number of 64 bits has one if both fit
    /// 53.
    fn quotient_by_float(self, other: Self) -> (Self, bool);
    /// The least and the greatest number whose product by a positive factor the type holds.
    fn bounds(factor: Self) -> (Self, Self);
    fn wrapping_product(self, other: Self) -> Self;
    /// For a divisor of at least two.
    fn inverse(divisor: Self) -> Inverse<Self>;
    fn quotient_by_inverse(self, inverse: Inverse<Self>) -> Self;
    /// The bits where a number, or its complement if it is negative, has ones.
    fn size(self) -> u64;
}

/// The same for types with a sign and without.
macro_rules! common {
    ($t:ident, $wide:ident) => {
        #[inline(always)]
        fn sum_by_saturation(self, other: $t) -> ($t, bool) {
            let sum = self.wrapping_add(other);
            (sum, sum != self.saturating_add(other))
        }
        #[inline(always)]
        fn checked_sum(self, other: $t) -> Option<$t> {
            self.checked_add(other)
        }
        #[inline(always)]
        fn product(self, other: $t) -> ($t, bool) {
            self.overflowing_mul(other)
        }
        #[inline(always)]
        fn product_by_width(self, other: $t) -> ($t, bool) {
            let product = self as $wide * other as $wide;
            (product as $t, product != product as $t as $wide)
        }
        #[inline(always)]
        fn has_first_bit(self) -> bool {
            self >> ($t::BITS - 1) != 0
        }
        #[inline(always)]
        fn checked_product(self, other: $t) -> Option<$t> {
            self.checked_mul(other)
        }
        #[inline(always)]
        fn quotient(self, other: $t) -> ($t, bool) {
            self.checked_div(other).map_or((0, true), |value| (value, false))
        }
        #[inline(always)]
        fn checked_quotient(self, other: $t) -> Option<$t> {
            self.checked_div(other)
        }
        fn bounds(factor: $t) -> ($t, $t) {
            ($t::MIN / factor, $t::MAX / factor)
        }
        #[inline(always)]
        fn wrapping_product(self, other: $t) -> $t {
            self.wrapping_mul(other)
        }
        /// The power of two from the divisor on, divided by it, without the part that every inverse
        /// has.
        fn inverse(divisor: $t) -> Inverse<$t> {
            let shift = (divisor as u64).next_power_of_two().trailing_zeros();
            let signed = u32::from($t::MIN != 0);
            let inverse = (1u128 << ($t::BITS + shift - signed)) / divisor as u128 + 1;
            Inverse { factor: inverse as $t, shift: shift - 1 }
        }
    };
}

macro_rules! signed {
    ($t:ident, $wide:ident, $float:ident, $told:ident) => {
        impl Number for $t {
            common!($t, $wide);
            #[inline(always)]
            fn sum(self, other: $t) -> ($t, bool) {
                let sum = self.wrapping_add(other);
                (sum, (other < 0) != (sum < self))
            }
            #[inline(always)]
            fn sum_by_signs(self, other: $t) -> ($t, $t) {
                let sum = self.wrapping_add(other);
                (sum, (self ^ sum) & (other ^ sum))
            }
            #[inline(always)]
            fn product_by_halves(self, other: $t) -> ($t, $t) {
                let product = self as $wide * other as $wide;
                (product as $t, (product >> $t::BITS) as $t ^ (product as $t >> ($t::BITS - 1)))
            }
            #[inline(always)]
            fn quotient_by_float(self, other: $t) -> ($t, bool) {
                let faults = (other == 0) | ((other == -1) & (self == $t::MIN));
                let quotient = self as $float / if faults { 1 } else { other } as $float;
                // SAFETY: no quotient passes the type
                (unsafe { quotient.to_int_unchecked::<$told>() } as $t, faults)
            }
            #[inline(always)]
            fn quotient_by_inverse(self, inverse: Inverse<$t>) -> $t {
                let high = ((self as $wide * inverse.factor as $wide) >> $t::BITS) as $t;
                (self.wrapping_add(high) >> inverse.shift) - (self >> ($t::BITS - 1))
            }
            #[inline(always)]
            fn size(self) -> u64 {
                (self ^ (self >> ($t::BITS - 1))) as u64
            }
        }
    };
}

macro_rules! unsigned {
    ($t:ident, $wide:ident, $told:expr) => {
        impl Number for $t {
            common!($t, $wide);
            #[inline(always)]
            fn sum(self, other: $t) -> ($t, bool) {
                let sum = self.wrapping_add(other);
                (sum, sum < self)
            }
            #[inline(always)]
            fn sum_by_signs(self, other: $t) -> ($t, $t) {
                let sum = self.wrapping_add(other);
                (sum, self & other | (self | other) & !sum)
            }
            #[inline(always)]
            fn product_by_halves(self, other: $t) -> ($t, $t) {
                let product = self as $wide * other as $wide;
                (product as $t, (product >> $t::BITS) as $t)
            }
            #[inline(always)]
            fn quotient_by_float(self, other: $t) -> ($t, bool) {
                let faults = other == 0;
                (($told)(self, if faults { 1 } else { other }), faults)
            }
            #[inline(always)]
            fn quotient_by_inverse(self, inverse: Inverse<$t>) -> $t {
                let high = ((self as $wide * inverse.factor as $wide) >> $t::BITS) as $t;
                (((self - high) >> 1) + high) >> inverse.shift
            }
            #[inline(always)]
            fn size(self) -> u64 {
                self as u64
            }
        }
    };
}

signed!(i8, i16, f32, i32);
signed!(i16, i32, f32, i32);
signed!(i32, i64, f64, i32);
signed!(i64, i128, f64, i64);
// SAFETY: no quotient passes the type
unsigned!(u8, u16, |x, y| unsafe { (x as f32 / y as f32).to_int_unchecked::<i32>() } as u8);
unsigned!(u16, u32, |x, y| unsafe { (x as f32 / y as f32).to_int_unchecked::<i32>() } as u16);
// what a signed number does not hold is moved before it is tested, and back
unsigned!(u32, u64, |x, y| {
    let floor = (x as f64 / y as f64).floor() - 2_147_483_648.0;
    (unsafe { floor.to_int_unchecked::<i32>() } as u32) ^ 1 << 31
});
unsigned!(u64, u128, |x, y| unsafe { (x as i64 as f64 / y as i64 as f64).to_int_unchecked::<i64>() } as u64);

/// The result, unless a row that is not null faults; if no row does, none is read again.
fn unless_fault<T: Copy>(
    (left, right): &Pair<T>,
    values: Vec<T>,
    may_fault: bool,
    faults: impl Fn(T, T) -> bool,
) -> Answered<T> {
    let valid = both_valid(&left.valid, &right.valid);
    if may_fault {
        let mut pairs = left.values.iter().zip(&right.values).enumerate();
        let is_valid = |i| valid.as_ref().is_none_or(|valid| valid.bit(i));
        assert!(!pairs.any(|(i, (x, y))| is_valid(i) && faults(*x, *y)), "a fault");
    }
    Rows { values, valid }
}

/// Faults joined over all rows.
#[inline(always)]
pub fn joined<T: Copy>(pair: &Pair<T>, apply: impl Fn(T, T) -> (T, bool)) -> Answered<T> {
    let mut fault = false;
    let pairs = pair.0.values.iter().zip(&pair.1.values);
    let values = pairs
        .map(|(x, y)| {
            let (value, overflows) = apply(*x, *y);
            fault |= overflows;
            value
        })
        .collect();
    unless_fault(pair, values, fault, |x, y| apply(x, y).1)
}

/// The bits joined over all rows.
#[inline(always)]
pub fn joined_bits<T: Number>(
    pair: &Pair<T>,
    apply: impl Fn(T, T) -> (T, T),
    tells: impl Fn(T) -> bool,
) -> Answered<T> {
    let mut bits = T::default();
    let pairs = pair.0.values.iter().zip(&pair.1.values);
    let values = pairs
        .map(|(x, y)| {
            let (value, told) = apply(*x, *y);
            bits |= told;
            value
        })
        .collect();
    unless_fault(pair, values, tells(bits), |x, y| tells(apply(x, y).1))
}

/// A loop that ends at the first row that faults; then all rows again, as the fault may be under a
/// null.
#[inline(always)]
pub fn ending<T: Copy + Default>(pair: &Pair<T>, apply: impl Fn(T, T) -> Option<T>) -> Answered<T> {
    let len = pair.0.values.len();
    let mut values = Vec::with_capacity(len);
    let room = &mut values.spare_capacity_mut()[..len];
    let mut rows = room.iter_mut().zip(pair.0.values.iter().zip(&pair.1.values));
    let faults = rows.any(|(room, (x, y))| apply(*x, *y).map(|value| room.write(value)).is_none());
    if faults {
        return joined(pair, |x, y| apply(x, y).map_or((T::default(), true), |value| (value, false)));
    }
    // SAFETY: no row ended the loop, so each was written
    unsafe { values.set_len(len) };
    unless_fault(pair, values, false, |_, _| false)
}

/// Quotients of 64 rows by floats where all of them fit 53 bits, else by the instruction.
pub fn divide_by_blocks<T: Number>(pair: &Pair<T>) -> Answered<T> {
    let mut fault = false;
    let mut values = Vec::with_capacity(pair.0.values.len());
    for (left, right) in pair.0.values.chunks(64).zip(pair.1.values.chunks(64)) {
        let sizes = left.iter().chain(right).fold(0, |sizes, x| sizes | x.size());
        let rows = left.iter().zip(right);
        let mut told = |(value, faults): (T, bool)| {
            fault |= faults;
            value
        };
        if sizes >> 53 == 0 {
            values.extend(rows.map(|(x, y)| told(x.quotient_by_float(*y))));
        } else {
            values.extend(rows.map(|(x, y)| told(x.quotient(*y))));
        }
    }
    unless_fault(pair, values, fault, |x, y| x.quotient(y).1)
}

/// The result for each row and a constant.
#[inline(always)]
fn beside<T: Copy>((left, _): &Pair<T>, apply: impl Fn(T) -> (T, bool)) -> Answered<T> {
    let mut fault = false;
    let values: Vec<T> = left
        .values
        .iter()
        .map(|x| {
            let (value, faults) = apply(*x);
            fault |= faults;
            value
        })
        .collect();
    let valid = left.valid.clone();
    if fault {
        let is_valid = |i| valid.as_ref().is_none_or(|valid| valid.bit(i));
        assert!(!(0..values.len()).any(|i| is_valid(i) && apply(left.values[i]).1), "a fault");
    }
    Rows { values, valid }
}

pub fn product_by_constant<T: Number>(pair: &Pair<T>, factor: T) -> Answered<T> {
    beside(pair, |x| x.product_by_width(factor))
}

pub fn product_within_bounds<T: Number>(pair: &Pair<T>, factor: T) -> Answered<T> {
    let (low, high) = T::bounds(factor);
    beside(pair, |x| (x.wrapping_product(factor), (x < low) | (x > high)))
}

pub fn quotient_by_instruction<T: Number>(pair: &Pair<T>, divisor: T) -> Answered<T> {
    beside(pair, |x| x.quotient(divisor))
}

pub fn quotient_by_constant<T: Number>(pair: &Pair<T>, divisor: T) -> Answered<T> {
    let inverse = T::inverse(divisor);
    beside(pair, |x| (x.quotient_by_inverse(inverse), false))
}

pub fn quotient_by_float<T: Number>(pair: &Pair<T>, divisor: T) -> Answered<T> {
    beside(pair, |x| x.quotient_by_float(divisor))
}
