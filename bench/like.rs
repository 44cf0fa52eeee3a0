//! Forms of LIKE and ILIKE: a walk over tokens, the library's calls for simple patterns, and words
//! of bytes.

use crate::columns::{Bits, Bools, Rows, TextViews, Texts, View, Views};
use crate::texts::{ByteRows, eight, of_string_column, of_view_column};
use std::arch::x86_64::*;
use std::slice::Iter;
use std::str::Chars;

// ---- the walk over tokens

/// What a pattern asks for at one position: any characters, one character, or that one.
#[derive(Clone, PartialEq)]
pub enum Token {
    Any,
    One,
    Char(char),
}

fn tokens_of(pattern: &str) -> Vec<Token> {
    let mut chars = pattern.chars();
    let mut tokens = vec![];
    while let Some(c) = chars.next() {
        tokens.push(match c {
            '%' => Token::Any,
            '_' => Token::One,
            '\\' => Token::Char(chars.next().unwrap_or(c)),
            _ => Token::Char(c),
        });
    }
    tokens
}

/// One walk over a text that backtracks only to its last `%`, one character later each time.
#[inline(always)]
fn matches(tokens: &[Token], text: &str, fold: impl Fn(char) -> char) -> bool {
    let (mut ahead, mut rest) = (tokens.iter(), text.chars());
    let mut back: Option<(Iter<Token>, Chars)> = None;
    loop {
        let token = ahead.next();
        if let Some(Token::Any) = token {
            if ahead.as_slice().is_empty() {
                return true;
            }
            back = Some((ahead.clone(), rest.clone()));
            continue;
        }
        let Some(c) = rest.next() else {
            return token.is_none();
        };
        let accepts = match token {
            Some(Token::Char(own)) => *own == fold(c),
            _ => token.is_some(),
        };
        if accepts {
            continue;
        }
        let Some((tokens, text)) = &mut back else {
            return false;
        };
        text.next();
        (ahead, rest) = (tokens.clone(), text.clone());
    }
}

/// A character, ignoring case. For what is not ASCII the first of its lower-case letters, which is
/// near to simple folding.
fn folded(c: char) -> char {
    if c.is_ascii() { c.to_ascii_lowercase() } else { c.to_lowercase().next().unwrap_or(c) }
}

pub fn by_walk(texts: &Texts, pattern: &str) -> Bools {
    let tokens = tokens_of(pattern);
    of_string_column(texts, |text| matches(&tokens, text, |c| c))
}

pub fn folded_by_walk(texts: &Texts, pattern: &str) -> Bools {
    let tokens = tokens_of(&pattern.chars().map(folded).collect::<String>());
    of_string_column(texts, |text| matches(&tokens, text, folded))
}

// ---- simple patterns

/// A pattern without `_` that has `%` only at its ends, or the parts between its `%`.
enum Plan {
    Equal(String),
    Prefix(String),
    Suffix(String),
    Contains(String),
    Parts(Vec<Vec<Token>>),
}

impl Plan {
    fn of(pattern: &str) -> Plan {
        let parts: Vec<Vec<Token>> = tokens_of(pattern).split(|token| *token == Token::Any).map(<[_]>::to_vec).collect();
        let texts: Option<Vec<String>> = parts.iter().map(|part| literal(part)).collect();
        match texts.as_deref() {
            Some([text]) => Plan::Equal(text.clone()),
            Some([text, none]) if none.is_empty() => Plan::Prefix(text.clone()),
            Some([none, text]) if none.is_empty() => Plan::Suffix(text.clone()),
            Some([none, text, nothing]) if none.is_empty() && nothing.is_empty() => Plan::Contains(text.clone()),
            _ => Plan::Parts(parts),
        }
    }
}

fn literal(part: &[Token]) -> Option<String> {
    part.iter().map(|token| if let Token::Char(c) = token { Some(*c) } else { None }).collect()
}

/// The position of a part in UTF-8: a byte, or a character of any length.
#[derive(Clone, Copy)]
enum Place {
    Byte(u8),
    Character,
}

/// Parts between `%`: the first begins the text, the last ends it, and each other is the first that is found.
struct Parts {
    head: Vec<Place>,
    middle: Vec<Vec<Place>>,
    tail: Option<Vec<Place>>,
}

impl Parts {
    fn of(parts: &[Vec<Token>]) -> Parts {
        let mut places: Vec<Vec<Place>> = parts.iter().map(|part| places_of(part)).collect();
        let head = places.remove(0);
        let tail = places.pop();
        Parts { head, middle: places, tail }
    }

    fn matches(&self, text: &[u8]) -> bool {
        let Some(mut rest) = after(&self.head, text) else {
            return false;
        };
        let Some(tail) = &self.tail else {
            return rest.is_empty();
        };
        let Some(before) = before(tail, rest) else {
            return false;
        };
        rest = before;
        self.middle.iter().all(|part| match (0..=rest.len()).find_map(|at| after(part, &rest[at..])) {
            Some(behind) => {
                rest = behind;
                true
            }
            None => false,
        })
    }
}

fn places_of(part: &[Token]) -> Vec<Place> {
    let mut places = vec![];
    for token in part {
        match token {
            Token::Char(c) => places.extend(c.encode_utf8(&mut [0; 4]).bytes().map(Place::Byte)),
            _ => places.push(Place::Character),
        }
    }
    places
}

fn is_inner(byte: u8) -> bool {
    byte & 0xc0 == 0x80
}

/// What follows a part that begins the text.
#[inline(always)]
fn after<'a>(part: &[Place], text: &'a [u8]) -> Option<&'a [u8]> {
    let mut rest = text;
    for place in part {
        let (byte, mut behind) = rest.split_first()?;
        match place {
            Place::Byte(own) if own == byte => {}
            Place::Character if !is_inner(*byte) => {
                let inner = behind.iter().take_while(|byte| is_inner(**byte)).count();
                behind = &behind[inner..];
            }
            _ => return None,
        }
        rest = behind;
    }
    Some(rest)
}

/// What comes before a part that ends the text.
#[inline(always)]
fn before<'a>(part: &[Place], text: &'a [u8]) -> Option<&'a [u8]> {
    let mut rest = text;
    for place in part.iter().rev() {
        let (byte, mut ahead) = rest.split_last()?;
        match place {
            Place::Byte(own) if own == byte => {}
            Place::Character => {
                let mut last = *byte;
                while is_inner(last) {
                    (last, ahead) = ahead.split_last().map(|(byte, ahead)| (*byte, ahead))?;
                }
            }
            _ => return None,
        }
        rest = ahead;
    }
    Some(rest)
}

// ---- the library's calls

fn as_text(bytes: &[u8]) -> &str {
    // SAFETY: rows of texts
    unsafe { std::str::from_utf8_unchecked(bytes) }
}

/// By `str`'s calls; other patterns by the bytes of their parts.
pub fn by_calls<T: ByteRows>(texts: &Rows<T>, pattern: &str) -> Bools {
    let rows = &texts.values;
    let values = match Plan::of(pattern) {
        Plan::Equal(own) => rows.told(|text| as_text(text) == own),
        Plan::Prefix(own) => rows.told(|text| as_text(text).starts_with(&own)),
        Plan::Suffix(own) => rows.told(|text| as_text(text).ends_with(&own)),
        Plan::Contains(own) => rows.told(|text| as_text(text).contains(&own)),
        Plan::Parts(parts) => {
            let parts = Parts::of(&parts);
            rows.told(|text| parts.matches(text))
        }
    };
    Rows { values, valid: texts.valid.clone() }
}

/// ILIKE if all is ASCII, by the library's case-insensitive calls; other texts by the walk.
pub fn folded_by_calls<T: ByteRows>(texts: &Rows<T>, pattern: &str) -> Bools {
    let small: String = pattern.chars().map(folded).collect();
    let tokens = tokens_of(&small);
    let rows = &texts.values;
    let walk = |text: &[u8]| matches(&tokens, as_text(text), folded);
    let values = match Plan::of(&small) {
        Plan::Prefix(own) if own.is_ascii() => rows.told(|text| match text.get(..own.len()) {
            _ if !text.is_ascii() => walk(text),
            Some(first) => first.eq_ignore_ascii_case(own.as_bytes()),
            None => false,
        }),
        Plan::Contains(own) if own.is_ascii() && !own.is_empty() => rows.told(|text| {
            if !text.is_ascii() {
                return walk(text);
            }
            text.windows(own.len()).any(|part| part.eq_ignore_ascii_case(own.as_bytes()))
        }),
        _ => rows.told(walk),
    };
    Rows { values, valid: texts.valid.clone() }
}

/// Whether a text begins with these characters, ignoring case.
fn begins_past_case(text: &str, own: &[char]) -> bool {
    let mut chars = text.chars();
    own.iter().all(|c| chars.next().map(folded) == Some(*c))
}

/// ILIKE of texts that need not be ASCII: the pattern is folded once, and a text from each of its characters on.
pub fn folded_by_small<T: ByteRows>(texts: &Rows<T>, pattern: &str) -> Bools {
    let small: String = pattern.chars().map(folded).collect();
    let rows = &texts.values;
    let values = match Plan::of(&small) {
        Plan::Prefix(own) => {
            let own: Vec<char> = own.chars().collect();
            rows.told(|text| begins_past_case(as_text(text), &own))
        }
        Plan::Contains(own) => {
            let own: Vec<char> = own.chars().collect();
            rows.told(|text| {
                let text = as_text(text);
                text.char_indices().any(|(at, _)| begins_past_case(&text[at..], &own))
            })
        }
        _ => {
            let tokens = tokens_of(&small);
            rows.told(|text| matches(&tokens, as_text(text), folded))
        }
    };
    Rows { values, valid: texts.valid.clone() }
}

// ---- words of bytes

/// Up to eight bytes as a number, big-endian, and the mask of that number.
fn word_of(bytes: &[u8]) -> (u64, u64) {
    let word = bytes.iter().fold(0, |word, byte| word << 8 | u64::from(*byte));
    (word, u64::MAX >> (64 - 8 * bytes.len()))
}

/// Whether a text contains those bytes, with the last eight bytes held in a number. No byte of
/// UTF-8 is 0xff.
#[inline(always)]
fn has_word(text: &[u8], (own, mask): (u64, u64), fold: impl Fn(u8) -> u8) -> bool {
    let mut word = u64::MAX;
    text.iter().any(|byte| {
        word = word << 8 | u64::from(fold(*byte));
        word & mask == own
    })
}

/// By the first byte, by the last eight bytes, and by the last bytes seen; else by calls.
pub fn by_words<T: ByteRows>(texts: &Rows<T>, pattern: &str) -> Bools {
    let rows = &texts.values;
    let values = match Plan::of(pattern) {
        Plan::Prefix(own) if own.len() == 1 => {
            let own = own.as_bytes()[0];
            rows.told(|text| text.first() == Some(&own))
        }
        Plan::Suffix(own) if (1..=8).contains(&own.len()) => {
            let (word, mask) = word_of(own.as_bytes());
            rows.told(|text| match text.len() {
                0..8 => text.ends_with(own.as_bytes()),
                len => eight(text, len - 8).swap_bytes() & mask == word,
            })
        }
        Plan::Contains(own) if (1..=8).contains(&own.len()) => {
            let own = word_of(own.as_bytes());
            rows.told(|text| has_word(text, own, |byte| byte))
        }
        _ => return by_calls(texts, pattern),
    };
    Rows { values, valid: texts.valid.clone() }
}

/// The same, ignoring case, if all is ASCII.
pub fn folded_by_words<T: ByteRows>(texts: &Rows<T>, pattern: &str) -> Bools {
    let small: String = pattern.chars().map(folded).collect();
    let tokens = tokens_of(&small);
    let rows = &texts.values;
    let walk = |text: &[u8]| matches(&tokens, as_text(text), folded);
    let values = match Plan::of(&small) {
        Plan::Prefix(own) if own.len() == 1 => {
            let own = own.as_bytes()[0];
            rows.told(|text| match text.first() {
                Some(byte) if byte.is_ascii() => byte.to_ascii_lowercase() == own,
                _ => walk(text),
            })
        }
        Plan::Contains(own) if own.is_ascii() && (1..=8).contains(&own.len()) => {
            let own = word_of(own.as_bytes());
            rows.told(|text| match text.is_ascii() {
                true => has_word(text, own, |byte| byte.to_ascii_lowercase()),
                false => walk(text),
            })
        }
        _ => return folded_by_calls(texts, pattern),
    };
    Rows { values, valid: texts.valid.clone() }
}

// ---- a pattern for each row

/// What a pattern asks of a text's bytes.
enum Test {
    Equal(String),
    Prefix(String),
    Suffix(String),
    Contains(String),
    Parts(Parts),
}

impl Test {
    fn of(pattern: &str) -> Test {
        match Plan::of(pattern) {
            Plan::Equal(own) => Test::Equal(own),
            Plan::Prefix(own) => Test::Prefix(own),
            Plan::Suffix(own) => Test::Suffix(own),
            Plan::Contains(own) => Test::Contains(own),
            Plan::Parts(parts) => Test::Parts(Parts::of(&parts)),
        }
    }

    #[inline(always)]
    fn says(&self, text: &[u8]) -> bool {
        match self {
            Test::Equal(own) => text == own.as_bytes(),
            Test::Prefix(own) => text.starts_with(own.as_bytes()),
            Test::Suffix(own) => text.ends_with(own.as_bytes()),
            Test::Contains(own) => as_text(text).contains(own),
            Test::Parts(parts) => parts.matches(text),
        }
    }
}

/// One of the last `KEPT` patterns is not compiled again.
pub fn by_repeated<const KEPT: usize>((texts, patterns): &(TextViews, TextViews)) -> Bools {
    let (rows, others) = (&texts.values, &patterns.values);
    let len = rows.rows().len();
    let mut values = Bits { words: vec![0; len.div_ceil(64) + 1], offset: 0, len };
    let mut kept: [(&[u8], Test); KEPT] = std::array::from_fn(|_| (&b""[..], Test::of("")));
    let mut at = 0;
    for (k, pairs) in rows.rows().chunks(64).zip(others.rows().chunks(64)).enumerate() {
        let mut word = 0;
        for (i, (text, pattern)) in pairs.0.iter().zip(pairs.1).enumerate() {
            let bytes = others.bytes(pattern);
            at = (at..KEPT).chain(0..at).find(|at| kept[*at].0 == bytes).unwrap_or_else(|| {
                let next = (at + 1) % KEPT;
                kept[next] = (bytes, Test::of(as_text(bytes)));
                next
            });
            word |= u64::from(kept[at].1.says(rows.bytes(text))) << i;
        }
        values.words[k] = word;
    }
    Rows { values, valid: texts.valid.clone() }
}

// ---- words of views

/// Whether up to eight bytes end a text; eight bytes that end with it must be readable.
#[inline(always)]
fn ends_view(rows: &Views, view: &View, (own, mask): (u64, u64), count: usize) -> bool {
    let len = view.len();
    // SAFETY: a text of four bytes and more has four more before it, in its view or in the buffer
    len >= count && unsafe { rows.start(view).add(len).sub(8).cast::<u64>().read_unaligned().swap_bytes() & mask == own }
}

/// Sixteen positions at a time, by the first and the last of the searched bytes; then by all of
/// them.
#[inline(always)]
fn has_bytes(rows: &Views, view: &View, own: &[u8], bytes: [__m128i; 2], word: (u64, u64)) -> bool {
    let (len, count, start) = (view.len(), own.len(), rows.start(view));
    let mut at = 0;
    while at + count <= len {
        // SAFETY: bytes follow the views and the buffer, so that more than a text has can be read
        let mut hits = unsafe {
            let first = _mm_cmpeq_epi8(_mm_loadu_si128(start.add(at).cast()), bytes[0]);
            let last = _mm_cmpeq_epi8(_mm_loadu_si128(start.add(at + count - 1).cast()), bytes[1]);
            _mm_movemask_epi8(_mm_and_si128(first, last)) as u32
        };
        let places = (len - count + 1 - at).min(16);
        hits &= u32::MAX >> (32 - places);
        while hits != 0 {
            let place = at + hits.trailing_zeros() as usize;
            // SAFETY: as above
            let seen = unsafe { start.add(place).cast::<u64>().read_unaligned() }.swap_bytes();
            if seen >> (64 - 8 * count) == word.0 {
                return true;
            }
            hits &= hits - 1;
        }
        at += 16;
    }
    false
}

/// A prefix by the first word of the view, a suffix by the last eight bytes, other bytes by vectors; else by calls.
pub fn by_view_words(texts: &TextViews, pattern: &str) -> Bools {
    let rows = &texts.values;
    match Plan::of(pattern) {
        Plan::Prefix(own) if (1..=4).contains(&own.len()) => {
            let (word, mask) = word_of(own.as_bytes());
            let (word, mask) = (word << (32 - 8 * own.len()), mask << (32 - 8 * own.len()));
            of_view_column(texts, |view| (u64::from(view.prefix()) & mask == word) & (view.len() >= own.len()))
        }
        Plan::Suffix(own) if (4..=8).contains(&own.len()) => {
            let word = word_of(own.as_bytes());
            of_view_column(texts, |view| ends_view(rows, view, word, own.len()))
        }
        Plan::Contains(own) if (1..=8).contains(&own.len()) => {
            let own = own.as_bytes();
            // SAFETY: SSE 2
            let bytes = [own[0], own[own.len() - 1]].map(|byte| unsafe { _mm_set1_epi8(byte as i8) });
            let word = word_of(own);
            of_view_column(texts, |view| has_bytes(rows, view, own, bytes, word))
        }
        _ => by_calls(texts, pattern),
    }
}
