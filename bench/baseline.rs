//! The same kernels in plain Rust, in several forms, and the program that times the project's calls
//! against the best of them.

mod arithmetic;
mod bits;
mod cases;
mod chance;
mod columns;
mod dictionary;
mod integers;
mod lanes;
mod like;
mod nested;
mod project;
mod text_cases;
mod texts;
mod timing;
mod vectors;

use cases::GROUPS;
use chance::{Chance, Shape};
use std::time::Instant;
use timing::{Case, Seen, counted, forms_alone, measured};

const SEED: u64 = 88172645463325252;

/// How long it takes to make, copy, execute and drop a chain of calls, with the stack of a program.
fn deep() {
    for calls in [250_000, 500_000, 1_000_000] {
        let began = Instant::now();
        assert_eq!(project::deep(calls), 1);
        println!("a chain of {calls} calls made, copied, executed and dropped: {} ms", began.elapsed().as_millis());
    }
}

/// That many calls of a case: of the project's, or of one of the forms. Without a count of calls,
/// the names of the forms.
fn count(words: &[String]) {
    let [name, rows, nulls, rest @ ..] = words else { panic!("count CASE ROWS NULLS [SIDE CALLS]") };
    let shape = Shape { rows: rows.parse().unwrap(), nulls: nulls.parse().unwrap() };
    let mut all = GROUPS.iter().flat_map(|group| group(&shape, &mut Chance(SEED)));
    let case = all.find(|case| case.name == *name).expect("a case of that name");
    match rest {
        [side, calls] => counted(case, side.parse().ok(), calls.parse().unwrap()),
        _ => case.forms.iter().for_each(|form| println!("{}", form.name)),
    }
}

/// The numbers in a variable.
fn listed(variable: &str, others: &str) -> Vec<u64> {
    let words = std::env::var(variable).unwrap_or(others.into());
    words.split_whitespace().map(|word| word.parse().expect("a number")).collect()
}

/// A line of a cell, its parts after tabs: the case, rows, nulls of a hundred, the ratio and its
/// quartiles, nanoseconds a row of the project and of the best form, that form, bytes a row, and
/// each form with its time over the best one's.
fn print_cell(name: &str, shape: &Shape, seen: &Seen) {
    let forms: Vec<String> = seen.forms.iter().map(|(name, time)| format!("{name} {time:.2}")).collect();
    let held = seen.held.map_or("-".into(), |held| format!("{:.1}", held as f64 / shape.rows as f64));
    let [ours, rust] = [seen.ours, seen.rust].map(|time| time * 1e9 / shape.rows as f64);
    let (ratio, Shape { rows, nulls }) = (&seen.ratio, shape);
    println!(
        "{name}\t{rows}\t{nulls}\t{:.3}\t{:.3}\t{:.3}\t{ours:.3}\t{rust:.3}\t{}\t{held}\t{}",
        ratio.median, ratio.low, ratio.high, seen.best, forms.join("; "),
    );
}

/// A line for each cell. A word after the program's name selects the cases whose names have it, and
/// `!word` the others; `forms` leaves out the project's side.
fn main() {
    let mut words = std::env::args().skip(1).peekable();
    if words.next_if_eq("count").is_some() {
        return count(&words.collect::<Vec<_>>());
    }
    let is_alone = words.next_if_eq("forms").is_some();
    let word = words.next().unwrap_or_default();
    if word == "deep" {
        return deep();
    }
    let (word, others) = word.strip_prefix('!').map_or((&*word, false), |word| (word, true));
    let picks = |case: &Case| case.name.contains(word) != others;
    let rounds = std::env::var("ROUNDS").ok().and_then(|n| n.parse().ok()).unwrap_or(15);
    let measure = if is_alone { forms_alone } else { measured };
    for group in GROUPS {
        for nulls in listed("NULLS", "0 10 50") {
            for rows in listed("SIZES", "1 64 1000 65536 1000000") {
                let shape = Shape { rows: rows as usize, nulls };
                for case in group(&shape, &mut Chance(SEED)).into_iter().filter(picks) {
                    let name = case.name.clone();
                    print_cell(&name, &shape, &measure(case, rounds));
                }
            }
        }
    }
}
