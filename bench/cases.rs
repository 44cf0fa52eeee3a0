//! The cases of truth values, integers and nested values that the project's call is compared with.

use crate::arithmetic::*;
use crate::bits;
use crate::chance::{Chance, Shape};
use crate::columns::{Bits, Bools, Ints, Low, Rows};
use crate::integers::*;
use crate::nested;
use crate::project::{self, Exported};
use crate::text_cases;
use crate::timing::{Case, Form, form};
use std::rc::Rc;

pub fn case<I: 'static>(name: &str, input: &Rc<I>, ours: impl Fn(&I) -> u64 + 'static, forms: Vec<Form>) -> Case {
    let input = input.clone();
    Case { name: name.into(), ours: Box::new(move || ours(&input)), forms }
}

fn bool_cases(shape: &Shape, chance: &mut Chance) -> Vec<Case> {
    let mut pair = |l, r| Rc::new((chance.bools(shape, l), chance.bools(shape, r)));
    let (plain, shifted) = (pair(0, 0), pair(3, 5));
    let and_forms = |pair: &Rc<(Bools, Bools)>| {
        vec![
            form("words", pair, bits::and),
            form("words, a pass each for values and nulls", pair, bits::and_by_passes),
            form("words and the byte behind", pair, bits::and_by_bytes),
            form("vectors", pair, bits::and_by_vectors),
        ]
    };
    let not_forms = || {
        vec![
            form("words", &plain, |(x, _)| bits::not(x)),
            form("an iterator over words", &plain, |(x, _)| bits::not_by_iterator(x)),
        ]
    };
    let less_forms =
        vec![form("words", &plain, bits::less), form("iterators over words", &plain, bits::less_by_iterators)];
    let copies = || vec![form("a copy", &plain, |(x, _)| x.clone())];
    let called = |name: &str, call, constant, forms| {
        case(name, &plain, move |pair| project::bools(pair, call, constant), forms)
    };
    vec![
        called("And", project::AND, project::COLUMN, and_forms(&plain)),
        case("And, offsets 3 and 5", &shifted, |pair| project::bools(pair, project::AND, 0), and_forms(&shifted)),
        called("And true", project::AND, project::TRUE, copies()),
        called("Or false", project::OR, project::FALSE, copies()),
        called("Not", project::NOT, project::COLUMN, not_forms()),
        called("bool < bool", project::LESS, project::COLUMN, less_forms),
        called("bool < true", project::LESS, project::TRUE, not_forms()),
        called("bool = true", project::EQUAL, project::TRUE, copies()),
    ]
}

/// `<` of columns of one type, and with a constant.
fn less_cases<T: Number + Exported + Low>(name: &str, shape: &Shape, chance: &mut Chance, constant: T, of: fn(u64) -> T) -> Vec<Case> {
    let pair = Rc::new((chance.rows(shape, of), chance.rows(shape, of)));
    vec![
        case(&format!("{name} < {name}"), &pair, |pair| T::call(pair, None, project::LESS), vec![
            form("product", &pair, less::<T>),
            form("vectors, narrowed", &pair, less_narrowed::<T>),
            form("vectors, masked", &pair, less_masked::<T>),
            #[cfg(target_feature = "avx2")]
            form("AVX2", &pair, less_wide::<T>),
        ]),
        case(&format!("{name} < constant"), &pair, move |pair| T::call(pair, Some(constant), project::LESS), vec![
            form("product", &pair, move |pair| less_one(pair, constant)),
            form("vectors, narrowed", &pair, move |pair| less_one_narrowed(pair, constant)),
            form("vectors, masked", &pair, move |pair| less_one_masked(pair, constant)),
            #[cfg(target_feature = "avx2")]
            form("AVX2", &pair, move |pair| less_one_wide(pair, constant)),
        ]),
    ]
}

/// Arithmetic of columns of one type: `of` makes a random number of at most the given size.
fn arithmetic_cases<T: Number + Exported + Low>(
    name: &str, shape: &Shape, chance: &mut Chance, [term, factor]: [u64; 2], of: fn(u64, u64) -> T,
) -> Vec<Case> {
    let terms = Rc::new((chance.rows(shape, |x| of(x, term)), chance.rows(shape, |x| of(x, term))));
    let factors = Rc::new((chance.rows(shape, |x| of(x, factor)), chance.rows(shape, |x| of(x, factor))));
    vec![
        case(&format!("{name} + {name}"), &terms, |pair| T::call(pair, None, project::ADD), vec![
            form("sums compared", &terms, |pair| joined(pair, T::sum)),
            form("signs joined", &terms, |pair| joined_bits(pair, T::sum_by_signs, T::has_first_bit)),
            form("beside the saturated sum", &terms, |pair| joined(pair, T::sum_by_saturation)),
            form("checked_add, ends at a fault", &terms, |pair| ending(pair, T::checked_sum)),
        ]),
        case(&format!("{name} * {name}"), &factors, |pair| T::call(pair, None, project::MUL), vec![
            form("overflowing_mul, joined", &factors, |pair| joined(pair, T::product)),
            form("in twice the bits", &factors, |pair| joined(pair, T::product_by_width)),
            form("upper halves joined", &factors, |pair| joined_bits(pair, T::product_by_halves, |x| x != T::default())),
            form("checked_mul, ends at a fault", &factors, |pair| ending(pair, T::checked_product)),
        ]),
    ]
}

/// Columns divided, and the same with a constant divisor and factor.
fn division_cases<T: Number + Exported + Low>(
    name: &str, shape: &Shape, chance: &mut Chance, [size, divisor]: [u64; 2], of: fn(u64, u64) -> T, plain: fn(u64) -> T,
) -> Vec<Case> {
    let pair = Rc::new((chance.rows(shape, |x| of(x, size)), chance.rows(shape, |x| plain(x % divisor + 1))));
    let small = Rc::new((chance.rows(shape, |x| of(x, size / 8)), Rows { values: vec![], valid: None }));
    let seven = plain(7);
    let mut by_constant = vec![
        form("the instruction", &pair, move |pair| quotient_by_instruction(pair, seven)),
        form("the inverse", &pair, move |pair| quotient_by_constant(pair, seven)),
    ];
    let mut by_column = vec![
        form("checked_div, joined", &pair, |pair| joined(pair, T::quotient)),
        form("checked_div, ends at a fault", &pair, |pair| ending(pair, T::checked_quotient)),
        form("floats where 64 rows fit", &pair, divide_by_blocks::<T>),
    ];
    if size_of::<T>() < 8 {
        by_column.push(form("floats", &pair, |pair| joined(pair, T::quotient_by_float)));
        by_constant.push(form("floats", &pair, move |pair| quotient_by_float(pair, seven)));
    }
    vec![
        case(&format!("{name} / {name}"), &pair, |pair| T::call(pair, None, project::DIV), by_column),
        case(&format!("{name} / constant"), &pair, move |pair| T::call(pair, Some(seven), project::DIV), by_constant),
        case(&format!("{name} * constant"), &small, move |pair| T::call(pair, Some(seven), project::MUL), vec![
            form("in twice the bits", &small, move |pair| product_by_constant(pair, seven)),
            form("two bounds", &small, move |pair| product_within_bounds(pair, seven)),
        ]),
    ]
}

/// The cases of one type: numbers of either sign, if the type has both.
macro_rules! integers {
    ($t:ident, $below:expr, $size:expr, $divisor:expr, $shape:expr, $chance:expr) => {{
        let name = stringify!($t);
        let of = |x: u64, size: u64| match $t::MIN {
            0 => (x % (size + 1)) as $t,
            _ => ((x % (2 * size + 1)) as $t).wrapping_sub(size as $t),
        };
        let half = $size / 2;
        let mut cases = less_cases::<$t>(name, $shape, $chance, $below, |x| x as $t);
        cases.extend(arithmetic_cases::<$t>(name, $shape, $chance, [half, half.isqrt()], of));
        cases.extend(division_cases::<$t>(name, $shape, $chance, [$size, $divisor], of, |x| x as $t));
        cases
    }};
}

/// `i64 / i64` where rows pass 32 bits.
fn long_division(shape: &Shape, chance: &mut Chance) -> Vec<Case> {
    let value = |x: u64| (x % (1 << 60)) as i64 * 4096 - (1 << 58);
    let pair = Rc::new((chance.rows(shape, value), chance.rows(shape, |x| (x % 1_000_000) as i64 + 1)));
    vec![case("i64 / i64, of 59 bits", &pair, |pair| i64::call(pair, None, project::DIV), vec![
        form("checked_div, joined", &pair, |pair| joined(pair, i64::quotient)),
        form("checked_div, ends at a fault", &pair, |pair| ending(pair, i64::checked_quotient)),
        form("floats where 64 rows fit", &pair, divide_by_blocks::<i64>),
    ])]
}

fn tree_case(shape: &Shape, chance: &mut Chance) -> Vec<Case> {
    let a = chance.rows(shape, |x| (x % 20) as i32);
    let b = chance.rows(shape, |x| (x % 12) as i32);
    let sides = Rc::new((a, b, chance.bools(shape, 0)));
    vec![case("(a < 10 and b > 5) or not c", &sides, project::tree, vec![
        form("an operator at a time, product", &sides, tree_by_products),
        form("an operator at a time, vectors", &sides, tree_by_vectors),
        form("one pass, product", &sides, tree_in_one_pass_by_products),
        form("one pass, vectors", &sides, tree_in_one_pass_by_vectors),
        #[cfg(target_feature = "avx2")]
        form("one pass, AVX2", &sides, tree_in_one_pass_by_wide_vectors),
    ])]
}

fn between_cases(shape: &Shape, chance: &mut Chance) -> Vec<Case> {
    let array = chance.rows(shape, |x| (x % 1000) as i32);
    let bounds = (chance.rows(shape, |x| (x % 500) as i32), chance.rows(shape, |x| (x % 500) as i32 + 500));
    let one = |value| Rows { values: vec![value], valid: None };
    let columns = Rc::new((array.clone(), bounds.0, bounds.1));
    let constants = Rc::new((array, one(300), one(700)));
    vec![
        case("i32 between columns", &columns, project::between, vec![
            form("product, a pass each", &columns, between_by_passes),
            form("product, one pass", &columns, between_by_products),
            form("vectors, one pass", &columns, between_by_vectors),
            form("vectors, one pass, joined", &columns, between_by_joined_vectors),
            #[cfg(target_feature = "avx2")]
            form("AVX2, one pass", &columns, between_by_wide_vectors),
        ]),
        case("i32 between constants", &constants, project::between, vec![
            form("product", &constants, between_constants),
            form("product, by span", &constants, between_constants_by_span),
            form("vectors", &constants, between_constants_by_vectors),
            form("vectors, by span", &constants, between_constants_by_vector_spans),
            #[cfg(target_feature = "avx2")]
            form("AVX2", &constants, between_constants_by_wide_vectors),
        ]),
    ]
}

/// Without nulls the result is a constant, and there is nothing to time.
fn null_cases(shape: &Shape, chance: &mut Chance) -> Vec<Case> {
    if shape.nulls == 0 {
        return vec![];
    }
    let input = Rc::new(chance.rows(shape, |x| x as i32));
    let told = |valid: &dyn Fn(&Bits) -> Bits, input: &Ints| Rows {
        values: valid(input.valid.as_ref().unwrap()),
        valid: None,
    };
    vec![
        case("i32 is null", &input, |input| project::null_tests(input, false), vec![form("words", &input, move |x| {
            told(&|valid| bits::by_word([valid], |[word]| !word), x)
        })]),
        case("i32 is not null", &input, |input| project::null_tests(input, true), vec![form(
            "a copy",
            &input,
            move |x| told(&Bits::clone, x),
        )]),
    ]
}

/// Records of two integers, of which the first decides in three rows of four, and lists; with inner
/// nulls where nulls are.
fn nested_cases(shape: &Shape, chance: &mut Chance) -> Vec<Case> {
    let mut cases = vec![];
    for has_nulls in [false, true] {
        let inside = if has_nulls { ", nulls inside" } else { "" };
        let records = Rc::new((chance.records(shape, has_nulls), chance.records(shape, has_nulls)));
        cases.push(case(&format!("struct of two i64 < struct{inside}"), &records, project::records, vec![
            form("a loop over pairs", &records, nested::less_by_loop),
            form("the fields joined, product", &records, nested::less_by_fields),
        ]));
        for are_even in [true, false] {
            let lists = Rc::new((chance.lists(shape, are_even, has_nulls), chance.lists(shape, are_even, has_nulls)));
            let mut forms = vec![form("a loop over slices", &lists, nested::less_by_slices)];
            if are_even {
                forms.push(form("arrays compared", &lists, nested::less_by_arrays));
            }
            let length = if are_even { "four" } else { "0 to 7" };
            cases.push(case(&format!("list of {length} i64 < list{inside}"), &lists, project::lists, forms));
        }
    }
    cases
}

/// The cases by groups, each made when it is needed, with its own random numbers.
pub const GROUPS: [fn(&Shape, &mut Chance) -> Vec<Case>; 17] = [
    bool_cases,
    |shape, chance| integers!(i8, 10, 120, 50, shape, chance),
    |shape, chance| integers!(i16, 100, 32_000, 100, shape, chance),
    |shape, chance| integers!(i32, 100, 500_000, 1000, shape, chance),
    |shape, chance| integers!(i64, 1 << 46, 500_000_000, 1000, shape, chance),
    |shape, chance| integers!(u8, 100, 250, 50, shape, chance),
    |shape, chance| integers!(u16, 30_000, 65_000, 100, shape, chance),
    |shape, chance| integers!(u32, 1 << 31, 1_000_000, 1000, shape, chance),
    |shape, chance| integers!(u64, 1 << 46, 1_000_000_000, 1000, shape, chance),
    long_division,
    tree_case,
    between_cases,
    null_cases,
    nested_cases,
    text_cases::text_cases,
    text_cases::like_cases,
    text_cases::dictionary_cases,
];
