//! Dictionaries: distinct values, and a code for each row.

use crate::columns::{Answer, Bits, Bools, Rows, TextViews, Texts, Views};
use std::rc::Rc;

pub struct Dictionary<V> {
    pub values: Rows<V>,
    pub codes: Rc<Vec<u32>>,
}

fn bits_at(bits: &Bits, codes: &[u32]) -> Bits {
    let mut words: Vec<u64> = codes
        .chunks(64)
        .map(|codes| codes.iter().enumerate().fold(0, |word, (i, code)| word | u64::from(bits.bit(*code as usize)) << i))
        .collect();
    words.extend([0, 0]);
    Bits { words, offset: 0, len: codes.len() }
}

fn valid_at(valid: &Option<Bits>, codes: &[u32]) -> Option<Bits> {
    valid.as_ref().map(|bits| bits_at(bits, codes))
}

pub fn gather(dictionary: &Dictionary<Vec<i64>>) -> Rows<Vec<i64>> {
    let (values, codes) = (&dictionary.values.values, &dictionary.codes);
    let rows = codes.iter().map(|code| values[*code as usize]).collect();
    Rows { values: rows, valid: valid_at(&dictionary.values.valid, codes) }
}

pub fn gather_unchecked(dictionary: &Dictionary<Vec<i64>>) -> Rows<Vec<i64>> {
    let (values, codes) = (&dictionary.values.values, &dictionary.codes);
    // SAFETY: each code is below the number of values
    let rows = codes.iter().map(|code| unsafe { *values.get_unchecked(*code as usize) }).collect();
    Rows { values: rows, valid: valid_at(&dictionary.values.valid, codes) }
}

pub fn gather_views(dictionary: &Dictionary<Views>) -> TextViews {
    let (values, codes) = (&dictionary.values.values, &dictionary.codes);
    Rows { values: values.at(codes), valid: valid_at(&dictionary.values.valid, codes) }
}

/// Results for the values under the same codes.
pub struct PushedDown {
    values: Bools,
    codes: Rc<Vec<u32>>,
}

impl Answer for PushedDown {
    fn sum(&self) -> u64 {
        let values = bits_at(&self.values.values, &self.codes);
        Rows { values, valid: valid_at(&self.values.valid, &self.codes) }.sum()
    }
}

/// A kernel's result for the values, with shared codes.
pub fn pushed<V>(dictionary: &Dictionary<V>, kernel: impl Fn(&Rows<V>) -> Bools) -> PushedDown {
    PushedDown { values: kernel(&dictionary.values), codes: dictionary.codes.clone() }
}

pub fn views_of(dictionary: &Dictionary<Vec<String>>) -> Dictionary<Views> {
    let Texts { values, valid } = &dictionary.values;
    Dictionary { values: Rows { values: Views::of(values), valid: valid.clone() }, codes: dictionary.codes.clone() }
}
