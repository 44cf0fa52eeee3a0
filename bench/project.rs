//! The project's exported calls, over borrowed columns. Each gets the number of calls from
//! `bench_next`, and returns a checksum.

use crate::columns::{Bits, Bools, Ints, Rows, Texts};
use crate::dictionary::Dictionary;
use crate::nested::{Lists, Records};
use crate::timing::columns_begin;

/// The calls by their numbers in kernels/measured.rt.txt.
pub const AND: u32 = 0;
pub const NOT: u32 = 1;
pub const LESS: u32 = 2;
pub const EQUAL: u32 = 3;
pub const ADD: u32 = 4;
pub const MUL: u32 = 5;
pub const DIV: u32 = 6;
pub const OR: u32 = 7;

/// The right side of a call of bools, as there.
pub const COLUMN: u32 = 0;
pub const TRUE: u32 = 1;
pub const FALSE: u32 = 2;

macro_rules! integers {
    ($name:ident, $t:ty) => {
        fn $name(
            left: *const $t, left_len: usize, left_valid: *const u8, left_valid_len: usize,
            right: *const $t, right_len: usize, right_valid: *const u8, right_valid_len: usize,
            is_constant: bool, constant: $t, call: u32,
        ) -> u64;
    };
}

unsafe extern "C" {
    fn bench_deep(calls: usize) -> u64;
    fn bench_bools(
        left: *const u8, left_len: usize, left_valid: *const u8, left_valid_len: usize, left_offset: usize,
        right: *const u8, right_len: usize, right_valid: *const u8, right_valid_len: usize, right_offset: usize,
        rows: usize, constant: u32, call: u32,
    ) -> u64;
    integers!(bench_i8, i8);
    integers!(bench_i16, i16);
    integers!(bench_i32, i32);
    integers!(bench_i64, i64);
    integers!(bench_u8, u8);
    integers!(bench_u16, u16);
    integers!(bench_u32, u32);
    integers!(bench_u64, u64);
    fn bench_texts(
        left: *const u8, left_len: usize, left_lengths: *const usize, left_lengths_len: usize,
        left_valid: *const u8, left_valid_len: usize,
        right: *const u8, right_len: usize, right_lengths: *const usize, right_lengths_len: usize,
        right_valid: *const u8, right_valid_len: usize,
        is_constant: bool, call: u32,
    ) -> u64;
    fn bench_tree(
        a: *const i32, a_len: usize, a_valid: *const u8, a_valid_len: usize,
        b: *const i32, b_len: usize, b_valid: *const u8, b_valid_len: usize,
        c: *const u8, c_len: usize, c_valid: *const u8, c_valid_len: usize,
    ) -> u64;
    fn bench_i32_between(
        array: *const i32, array_len: usize, array_valid: *const u8, array_valid_len: usize,
        lower: *const i32, lower_len: usize, lower_valid: *const u8, lower_valid_len: usize,
        upper: *const i32, upper_len: usize, upper_valid: *const u8, upper_valid_len: usize,
    ) -> u64;
    fn bench_texts_between(
        array: *const u8, array_len: usize, array_lengths: *const usize, array_lengths_len: usize,
        array_valid: *const u8, array_valid_len: usize,
        lower: *const u8, lower_len: usize, upper: *const u8, upper_len: usize,
    ) -> u64;
    fn bench_i32_null_tests(
        input: *const i32, input_len: usize, input_valid: *const u8, input_valid_len: usize, is_negated: bool,
    ) -> u64;
    fn bench_records(
        left_first: *const i64, left_first_len: usize, left_first_valid: *const u8, left_first_valid_len: usize,
        left_second: *const i64, left_second_len: usize, left_valid: *const u8, left_valid_len: usize,
        right_first: *const i64, right_first_len: usize, right_first_valid: *const u8, right_first_valid_len: usize,
        right_second: *const i64, right_second_len: usize, right_valid: *const u8, right_valid_len: usize,
    ) -> u64;
    fn bench_lists(
        left: *const i64, left_len: usize, left_inside: *const u8, left_inside_len: usize,
        left_ends: *const usize, left_ends_len: usize, left_valid: *const u8, left_valid_len: usize,
        right: *const i64, right_len: usize, right_inside: *const u8, right_inside_len: usize,
        right_ends: *const usize, right_ends_len: usize, right_valid: *const u8, right_valid_len: usize,
    ) -> u64;
    fn bench_dictionary_ints(
        values: *const i64, values_len: usize, valid: *const u8, valid_len: usize,
        codes: *const u32, codes_len: usize, constant: i64, call: u32,
    ) -> u64;
    fn bench_dictionary_texts(
        texts: *const u8, texts_len: usize, lengths: *const usize, lengths_len: usize,
        valid: *const u8, valid_len: usize, codes: *const u32, codes_len: usize,
        pattern: *const u8, pattern_len: usize, call: u32,
    ) -> u64;
    fn bench_like(
        texts: *const u8, texts_len: usize, lengths: *const usize, lengths_len: usize,
        texts_valid: *const u8, texts_valid_len: usize,
        patterns: *const u8, patterns_len: usize, pattern_lengths: *const usize, pattern_lengths_len: usize,
        case_insensitive: bool,
    ) -> u64;
}

fn bytes_of(valid: &Option<Bits>) -> &[u8] {
    valid.as_ref().map_or(&[], Bits::bytes)
}

pub fn deep(calls: usize) -> u64 {
    unsafe { bench_deep(calls) }
}

/// A call of bools with a column or a constant.
pub fn bools((l, r): &(Bools, Bools), call: u32, constant: u32) -> u64 {
    let (lv, rv) = (bytes_of(&l.valid), bytes_of(&r.valid));
    let (lb, rb) = (l.values.bytes(), r.values.bytes());
    unsafe {
        bench_bools(
            lb.as_ptr(), lb.len(), lv.as_ptr(), lv.len(), l.values.offset,
            rb.as_ptr(), rb.len(), rv.as_ptr(), rv.len(), r.values.offset,
            l.values.len, constant, call,
        )
    }
}

/// A type of integers with its export.
pub trait Exported: Sized {
    /// A call of two columns, or of one and a constant.
    fn call(pair: &(Rows<Vec<Self>>, Rows<Vec<Self>>), constant: Option<Self>, call: u32) -> u64;
}

macro_rules! exported {
    ($t:ident, $export:ident) => {
        impl Exported for $t {
            fn call((l, r): &(Rows<Vec<$t>>, Rows<Vec<$t>>), constant: Option<$t>, call: u32) -> u64 {
                let (lv, rv) = (bytes_of(&l.valid), bytes_of(&r.valid));
                unsafe {
                    $export(
                        l.values.as_ptr(), l.values.len(), lv.as_ptr(), lv.len(),
                        r.values.as_ptr(), r.values.len(), rv.as_ptr(), rv.len(),
                        constant.is_some(), constant.unwrap_or_default(), call,
                    )
                }
            }
        }
    };
}

exported!(i8, bench_i8);
exported!(i16, bench_i16);
exported!(i32, bench_i32);
exported!(i64, bench_i64);
exported!(u8, bench_u8);
exported!(u16, bench_u16);
exported!(u32, bench_u32);
exported!(u64, bench_u64);

fn lengths_of(texts: &Texts) -> Vec<usize> {
    texts.values.iter().map(String::len).collect()
}

pub fn texts((l, r): &(Texts, Texts), constant: Option<&str>, call: u32) -> u64 {
    let (lv, rv) = (bytes_of(&l.valid), bytes_of(&r.valid));
    let (left, right) = (l.values.concat(), r.values.concat());
    let (ll, rl) = (lengths_of(l), lengths_of(r));
    let side = constant.unwrap_or(&right);
    columns_begin();
    unsafe {
        bench_texts(
            left.as_ptr(), left.len(), ll.as_ptr(), ll.len(), lv.as_ptr(), lv.len(),
            side.as_ptr(), side.len(), rl.as_ptr(), rl.len(), rv.as_ptr(), rv.len(),
            constant.is_some(), call,
        )
    }
}

pub fn tree((a, b, c): &(Ints, Ints, Bools)) -> u64 {
    let (av, bv, cv) = (bytes_of(&a.valid), bytes_of(&b.valid), bytes_of(&c.valid));
    let bits = c.values.bytes();
    unsafe {
        bench_tree(
            a.values.as_ptr(), a.values.len(), av.as_ptr(), av.len(),
            b.values.as_ptr(), b.values.len(), bv.as_ptr(), bv.len(),
            bits.as_ptr(), bits.len(), cv.as_ptr(), cv.len(),
        )
    }
}

pub fn between((array, lower, upper): &(Ints, Ints, Ints)) -> u64 {
    let (av, lv, uv) = (bytes_of(&array.valid), bytes_of(&lower.valid), bytes_of(&upper.valid));
    unsafe {
        bench_i32_between(
            array.values.as_ptr(), array.values.len(), av.as_ptr(), av.len(),
            lower.values.as_ptr(), lower.values.len(), lv.as_ptr(), lv.len(),
            upper.values.as_ptr(), upper.values.len(), uv.as_ptr(), uv.len(),
        )
    }
}

pub fn texts_between(texts: &Texts, lower: &str, upper: &str) -> u64 {
    let (bytes, lengths, valid) = (texts.values.concat(), lengths_of(texts), bytes_of(&texts.valid));
    unsafe {
        bench_texts_between(
            bytes.as_ptr(), bytes.len(), lengths.as_ptr(), lengths.len(), valid.as_ptr(), valid.len(),
            lower.as_ptr(), lower.len(), upper.as_ptr(), upper.len(),
        )
    }
}

pub fn null_tests(input: &Ints, is_negated: bool) -> u64 {
    let valid = bytes_of(&input.valid);
    unsafe {
        bench_i32_null_tests(input.values.as_ptr(), input.values.len(), valid.as_ptr(), valid.len(), is_negated)
    }
}

/// `<` of records of two integers.
pub fn records((l, r): &(Records, Records)) -> u64 {
    let (lv, rv) = (bytes_of(&l.valid), bytes_of(&r.valid));
    let ((la, lb), (ra, rb)) = (&l.values, &r.values);
    let (li, ri) = (bytes_of(&la.valid), bytes_of(&ra.valid));
    unsafe {
        bench_records(
            la.values.as_ptr(), la.values.len(), li.as_ptr(), li.len(), lb.as_ptr(), lb.len(), lv.as_ptr(), lv.len(),
            ra.values.as_ptr(), ra.values.len(), ri.as_ptr(), ri.len(), rb.as_ptr(), rb.len(), rv.as_ptr(), rv.len(),
        )
    }
}

/// `<` of lists of integers.
pub fn lists((l, r): &(Lists, Lists)) -> u64 {
    let (lv, rv) = (bytes_of(&l.valid), bytes_of(&r.valid));
    let ((le, ln), (re, rn)) = (&l.values, &r.values);
    let (li, ri) = (bytes_of(&le.valid), bytes_of(&re.valid));
    unsafe {
        bench_lists(
            le.values.as_ptr(), le.values.len(), li.as_ptr(), li.len(), ln.as_ptr(), ln.len(), lv.as_ptr(), lv.len(),
            re.values.as_ptr(), re.values.len(), ri.as_ptr(), ri.len(), rn.as_ptr(), rn.len(), rv.as_ptr(), rv.len(),
        )
    }
}

/// Texts and one pattern.
pub fn like(texts: &Texts, pattern: &str, case_insensitive: bool) -> u64 {
    like_patterns(texts, pattern, &[], case_insensitive)
}

/// Texts and a column of concatenated patterns.
pub fn like_repeated(texts: &Texts, patterns: &Texts) -> u64 {
    like_patterns(texts, &patterns.values.concat(), &lengths_of(patterns), false)
}

fn like_patterns(texts: &Texts, patterns: &str, pattern_lengths: &[usize], case_insensitive: bool) -> u64 {
    let (bytes, lengths, valid) = (texts.values.concat(), lengths_of(texts), bytes_of(&texts.valid));
    unsafe {
        bench_like(
            bytes.as_ptr(), bytes.len(), lengths.as_ptr(), lengths.len(), valid.as_ptr(), valid.len(),
            patterns.as_ptr(), patterns.len(), pattern_lengths.as_ptr(), pattern_lengths.len(), case_insensitive,
        )
    }
}

/// The work with a dictionary, as in kernels/dictionary.rt.txt: its rows are made, a function is
/// run over its values, or over rows that were made before.
pub const DECODE: u32 = 0;
pub const PUSH_DOWN: u32 = 1;
pub const OVER_ROWS: u32 = 2;

pub fn int_dictionary(dictionary: &Dictionary<Vec<i64>>, constant: i64, call: u32) -> u64 {
    let (values, valid, codes) = (&dictionary.values.values, bytes_of(&dictionary.values.valid), &dictionary.codes);
    unsafe {
        bench_dictionary_ints(
            values.as_ptr(), values.len(), valid.as_ptr(), valid.len(), codes.as_ptr(), codes.len(), constant, call,
        )
    }
}

pub fn text_dictionary(dictionary: &Dictionary<Vec<String>>, pattern: &str, call: u32) -> u64 {
    let texts = &dictionary.values;
    let (bytes, lengths, valid) = (texts.values.concat(), lengths_of(texts), bytes_of(&texts.valid));
    let codes = &dictionary.codes;
    unsafe {
        bench_dictionary_texts(
            bytes.as_ptr(), bytes.len(), lengths.as_ptr(), lengths.len(), valid.as_ptr(), valid.len(),
            codes.as_ptr(), codes.len(), pattern.as_ptr(), pattern.len(), call,
        )
    }
}
