//! The cases of texts, of LIKE and of dictionaries.

use crate::cases::case;
use crate::chance::{Chance, Shape, Width};
use crate::columns::{Rows, TextViews, Texts, views_of};
use crate::dictionary::{self, Dictionary};
use crate::integers::{less_one, less_one_narrowed};
use crate::like;
use crate::project;
use crate::texts::*;
use crate::timing::{Case, Form, form};
use crate::vectors::tested;
use std::rc::Rc;

const WIDTHS: [Width; 3] = [Width::Fixed(8), Width::Fixed(20), Width::Mixed];

/// Columns of texts in Rust's two forms.
struct TextPair {
    width: Width,
    constant: String,
    strings: Rc<(Texts, Texts)>,
    views: Rc<(TextViews, TextViews)>,
}

impl TextPair {
    fn of(shape: &Shape, chance: &mut Chance, width: Width) -> TextPair {
        let strings = (chance.texts(shape, width), chance.texts(shape, width));
        let views = (views_of(&strings.0), views_of(&strings.1));
        TextPair { width, constant: strings.0.values[0].clone(), strings: Rc::new(strings), views: Rc::new(views) }
    }

    fn case(&self, name: &str, is_constant: bool, call: u32, forms: Vec<Form>) -> Case {
        let constant = is_constant.then(|| self.constant.clone());
        let name = format!("{} {name}", self.width.name());
        case(&name, &self.strings, move |pair| project::texts(pair, constant.as_deref(), call), forms)
    }

    fn equal_to_constant(&self) -> Case {
        let [one, two, three, four, five] = std::array::from_fn(|_| self.constant.clone());
        self.case("= constant", true, project::EQUAL, vec![
            form("strings", &self.strings, move |(x, _)| of_string_column(x, |x| *x == one)),
            form("strings by words", &self.strings, move |(x, _)| {
                of_string_column(x, |x| are_same(x.as_bytes(), two.as_bytes()))
            }),
            form("views by words", &self.views, move |(x, _)| equal_one_view(x, &three)),
            form("views at once", &self.views, move |(x, _)| equal_one_view_at_once(x, &four)),
            form("views by vectors", &self.views, move |(x, _)| equal_one_view_by_vectors(x, &five)),
        ])
    }

    fn below_constant(&self) -> Case {
        let [one, two, three, four, five] = std::array::from_fn(|_| self.constant.clone());
        self.case("< constant", true, project::LESS, vec![
            form("strings", &self.strings, move |(x, _)| of_string_column(x, |x| *x < one)),
            form("strings by words", &self.strings, move |(x, _)| {
                of_string_column(x, |x| order(x.as_bytes(), two.as_bytes()).is_lt())
            }),
            form("views", &self.views, move |(x, _)| less_one_view(x, &three)),
            form("views by words", &self.views, move |(x, _)| less_one_view_by_words(x, &four)),
            form("views by vectors", &self.views, move |(x, _)| less_one_view_by_vectors(x, &five)),
        ])
    }

    fn cases(&self) -> Vec<Case> {
        vec![
            self.case("= text", false, project::EQUAL, vec![
                form("strings", &self.strings, equal_texts),
                form("strings by words", &self.strings, equal_texts_by_words),
                form("views", &self.views, equal_views),
                form("views by words", &self.views, equal_views_by_words),
                form("views by vectors", &self.views, equal_views_by_vectors),
            ]),
            self.equal_to_constant(),
            self.case("< text", false, project::LESS, vec![
                form("strings", &self.strings, less_texts),
                form("strings by words", &self.strings, less_texts_by_words),
                form("views", &self.views, less_views),
                form("views by words", &self.views, less_views_by_words),
                form("views by vectors", &self.views, less_views_by_vectors),
            ]),
            self.below_constant(),
        ]
    }
}

fn text_between_case(shape: &Shape, chance: &mut Chance, width: Width) -> Case {
    let texts = Rc::new(chance.texts(shape, width));
    let views = Rc::new(views_of(&texts));
    let (one, other) = (texts.values[0].clone(), texts.values[texts.values.len() / 2].clone());
    let bounds = Rc::new((one.clone().min(other.clone()), one.max(other)));
    let [ours, by_calls, by_words, by_views, by_keys, by_vectors] = std::array::from_fn(|_| bounds.clone());
    let name = format!("{} between constants", width.name());
    case(&name, &texts, move |texts| project::texts_between(texts, &ours.0, &ours.1), vec![
        form("strings", &texts, move |texts| {
            of_string_column(texts, |x| (by_calls.0 <= *x) & (*x <= by_calls.1))
        }),
        form("strings by words", &texts, move |texts| {
            let (low, high) = (by_words.0.as_bytes(), by_words.1.as_bytes());
            of_string_column(texts, |x| order(low, x.as_bytes()).is_le() & order(x.as_bytes(), high).is_le())
        }),
        form("views", &views, move |texts| between_views(texts, &by_views.0, &by_views.1)),
        form("views by words", &views, move |texts| between_views_by_words(texts, &by_keys.0, &by_keys.1)),
        form("views by vectors", &views, move |texts| {
            between_views_by_vectors(texts, &by_vectors.0, &by_vectors.1)
        }),
    ])
}

/// Words or lines and one pattern; the last is a whole text.
fn like_cases_of(shape: &Shape, chance: &mut Chance, name: &str, are_long: bool) -> Vec<Case> {
    let texts = Rc::new(chance.words(shape, are_long));
    let views = Rc::new(views_of(&texts));
    let whole = if are_long { "xylene, mixed isomers" } else { "ion foci" };
    let escaped = if are_long { "xylene, mixed\\ isomers" } else { "ion\\ foci" };
    let mut cases: Vec<Case> = ["x%", "%oxide", "%nitr%", "i%o_i", whole, "x_l%", "%i%o%", escaped]
        .map(|pattern| {
            case(&format!("{name} like {pattern}"), &texts, move |texts| project::like(texts, pattern, false), vec![
                form("strings, walk over tokens", &texts, move |texts| like::by_walk(texts, pattern)),
                form("strings, calls", &texts, move |texts| like::by_calls(texts, pattern)),
                form("strings by words", &texts, move |texts| like::by_words(texts, pattern)),
                form("views, calls", &views, move |texts| like::by_calls(texts, pattern)),
                form("views by words", &views, move |texts| like::by_view_words(texts, pattern)),
            ])
        })
        .into();
    cases.extend(["X%", "%NITR%"].map(|pattern| {
        case(&format!("{name} ilike {pattern}"), &texts, move |texts| project::like(texts, pattern, true), vec![
            form("strings, walk over tokens", &texts, move |texts| like::folded_by_walk(texts, pattern)),
            form("strings, ASCII calls", &texts, move |texts| like::folded_by_calls(texts, pattern)),
            form("strings, ASCII by words", &texts, move |texts| like::folded_by_words(texts, pattern)),
            form("views, ASCII calls", &views, move |texts| like::folded_by_calls(texts, pattern)),
            form("views, ASCII by words", &views, move |texts| like::folded_by_words(texts, pattern)),
        ])
    }));
    cases.extend(["x%", "%oxide", "%nitr%", whole].map(|pattern| {
        let patterns = Texts { values: vec![pattern.into(); shape.rows], valid: None };
        let views = Rc::new((views.as_ref().clone(), views_of(&patterns)));
        let name = format!("{name} like {pattern}, in each row");
        case(&name, &texts, move |texts| project::like_repeated(texts, &patterns), vec![
            form("views, calls, the last pattern kept", &views, like::by_repeated::<1>),
        ])
    }));
    cases.push(patterns_in_turn(shape, &format!("{name} like eight patterns in turn"), &texts, whole));
    cases
}

/// ILIKE of texts that are not ASCII.
fn name_cases(shape: &Shape, chance: &mut Chance) -> Vec<Case> {
    let texts = Rc::new(chance.names(shape));
    let views = Rc::new(views_of(&texts));
    ["É%", "%ÉCOLE%"]
        .map(|pattern| {
            case(&format!("name ilike {pattern}"), &texts, move |texts| project::like(texts, pattern, true), vec![
                form("strings, walk over tokens", &texts, move |texts| like::folded_by_walk(texts, pattern)),
                form("strings, small letters", &texts, move |texts| like::folded_by_small(texts, pattern)),
                form("views, small letters", &views, move |texts| like::folded_by_small(texts, pattern)),
            ])
        })
        .into()
}

/// Another pattern in each row than in the one before, of eight.
fn patterns_in_turn(shape: &Shape, name: &str, texts: &Rc<Texts>, whole: &str) -> Case {
    let eight = ["x%", "%oxide", "%nitr%", whole, "water%", "%on", "%ine%", "iodine"];
    let patterns = Texts { values: (0..shape.rows).map(|i| eight[i % 8].into()).collect(), valid: None };
    let views = Rc::new((views_of(texts), views_of(&patterns)));
    case(name, texts, move |texts| project::like_repeated(texts, &patterns), vec![
        form("views, calls, the last pattern kept", &views, like::by_repeated::<1>),
        form("views, calls, the last eight kept", &views, like::by_repeated::<8>),
    ])
}

/// A dictionary of that many values: its rows made, and a function over its values or its rows.
fn int_dictionary_cases(shape: &Shape, chance: &mut Chance, count: usize) -> Vec<Case> {
    let values = chance.rows(&Shape { rows: count, ..*shape }, |x| x as i64);
    let dictionary = Rc::new(Dictionary { values, codes: Rc::new(chance.codes(shape, count)) });
    let rows = Rc::new((dictionary::gather(&dictionary), Rows { values: vec![], valid: None }));
    const BELOW: i64 = 1 << 46;
    let name = format!("i64 of {count} values");
    let over_rows = || {
        vec![
            form("product", &rows, |pair| less_one(pair, BELOW)),
            form("vectors, narrowed", &rows, |pair| less_one_narrowed(pair, BELOW)),
        ]
    };
    vec![
        case(&format!("{name}: decode"), &dictionary, |d| project::int_dictionary(d, BELOW, project::DECODE), vec![
            form("gathering", &dictionary, dictionary::gather),
            form("gathering, unchecked", &dictionary, dictionary::gather_unchecked),
        ]),
        case(&format!("{name}: < constant over the rows"), &dictionary, |d| {
            project::int_dictionary(d, BELOW, project::OVER_ROWS)
        }, over_rows()),
        case(&format!("{name}: < constant pushed down"), &dictionary, |d| {
            project::int_dictionary(d, BELOW, project::PUSH_DOWN)
        }, [vec![form("product, over the values", &dictionary, |d| {
            dictionary::pushed(d, |values| Rows { values: tested(&values.values, |x| *x < BELOW), valid: values.valid.clone() })
        })], over_rows()].into_iter().flatten().collect()),
    ]
}

fn text_dictionary_cases(shape: &Shape, chance: &mut Chance, count: usize) -> Vec<Case> {
    let values = chance.texts(&Shape { rows: count, ..*shape }, Width::Fixed(20));
    let dictionary = Rc::new(Dictionary { values, codes: Rc::new(chance.codes(shape, count)) });
    let views = Rc::new(dictionary::views_of(&dictionary));
    let rows = Rc::new(dictionary::gather_views(&views));
    let name = format!("text of 20 bytes, {count} values");
    const PATTERN: &str = "%ab%";
    vec![
        case(&format!("{name}: decode"), &dictionary, |d| project::text_dictionary(d, PATTERN, project::DECODE), vec![
            form("views gathered", &views, dictionary::gather_views),
        ]),
        case(&format!("{name}: like over the rows"), &dictionary, |d| {
            project::text_dictionary(d, PATTERN, project::OVER_ROWS)
        }, vec![
            form("views, calls", &rows, |rows| like::by_calls(rows, PATTERN)),
            form("views by words", &rows, |rows| like::by_view_words(rows, PATTERN)),
        ]),
        case(&format!("{name}: like pushed down"), &dictionary, |d| {
            project::text_dictionary(d, PATTERN, project::PUSH_DOWN)
        }, vec![
            form("views by words, over the values", &views, |d| {
                dictionary::pushed(d, |values| like::by_view_words(values, PATTERN))
            }),
            form("views by words", &rows, |rows| like::by_view_words(rows, PATTERN)),
        ]),
    ]
}

pub fn text_cases(shape: &Shape, chance: &mut Chance) -> Vec<Case> {
    let mut cases = vec![];
    for width in WIDTHS {
        cases.extend(TextPair::of(shape, chance, width).cases());
    }
    cases.extend(WIDTHS.map(|width| text_between_case(shape, chance, width)));
    cases
}

pub fn like_cases(shape: &Shape, chance: &mut Chance) -> Vec<Case> {
    [like_cases_of(shape, chance, "text", false), like_cases_of(shape, chance, "line", true), name_cases(shape, chance)]
        .into_iter()
        .flatten()
        .collect()
}

pub fn dictionary_cases(shape: &Shape, chance: &mut Chance) -> Vec<Case> {
    let mut cases = vec![];
    for count in [100, 65_536] {
        cases.extend(int_dictionary_cases(shape, chance, count));
        cases.extend(text_dictionary_cases(shape, chance, count));
    }
    cases
}
