//! Random columns.

use crate::columns::{Bits, Bools, Rows, Texts};
use crate::nested::{Lists, Records};

/// That many rows, of which that many of a hundred are null.
#[derive(Clone, Copy)]
pub struct Shape {
    pub rows: usize,
    pub nulls: u64,
}

/// Texts of mixed lengths: two begin with x, two end in oxide, three have nitr, and one is i%o_i.
const WORDS: [&str; 12] = [
    "iron oxide", "nitrogen", "indium oxoid", "xenon", "ammonium nitrate", "zinc dioxide", "xylene", "ion foci", "iodine",
    "potassium nitrite", "water", "carbon",
];

/// Texts of 20 to 60 bytes: two begin with x, two end in oxide, three have nitr, and one is i%o_i.
const LINES: [&str; 12] = [
    "iron oxide beside copper sulfate and zinc oxide", "nitrogen over water at room temperature",
    "ion foci of a lens in a row of two foci", "xenon lamp, 300 watt, with a quartz window",
    "ammonium nitrate, technical grade", "zinc dioxide pellets in a jar of oxide", "xylene, mixed isomers",
    "iodine crystals, resublimed, in a bottle of brown glass", "potassium nitrite solution",
    "water, deionised and filtered", "carbon black, conductive, half compressed", "indium foil, 0.25 millimetres thick",
];

/// Texts that are not ASCII, of 6 to 24 bytes: three have École ignoring case, two begin with é.
const NAMES: [&str; 12] = [
    "École normale", "Émile Zola", "l’école du soir", "grande ÉCOLE", "Straße", "Ångström", "naïveté", "été indien",
    "café crème", "Übergröße", "señor Peña", "déjà vu",
];

/// How long texts are: each of that many bytes, or of none to forty.
#[derive(Clone, Copy)]
pub enum Width {
    Fixed(usize),
    Mixed,
}

impl Width {
    pub fn name(self) -> String {
        match self {
            Width::Fixed(width) => format!("text of {width} bytes"),
            Width::Mixed => "text of 0 to 40 bytes".into(),
        }
    }
}

pub struct Chance(pub u64);

impl Chance {
    fn next(&mut self) -> u64 {
        self.0 ^= self.0 << 13;
        self.0 ^= self.0 >> 7;
        self.0 ^= self.0 << 17;
        self.0.wrapping_mul(0x2545_f491_4f6c_dd1d)
    }

    fn below(&mut self, bound: u64) -> u64 {
        (self.next() >> 32) * bound >> 32
    }

    fn bits(&mut self, offset: usize, len: usize, percent: u64) -> Bits {
        let mut words = vec![0; (offset + len).div_ceil(64) + 2];
        for i in offset..offset + len {
            words[i / 64] |= u64::from(self.below(100) < percent) << (i % 64);
        }
        Bits { words, offset, len }
    }

    /// Which rows are not null, if any can be null.
    fn valid(&mut self, shape: &Shape, offset: usize) -> Option<Bits> {
        (shape.nulls > 0).then(|| self.bits(offset, shape.rows, 100 - shape.nulls))
    }

    pub fn rows<T>(&mut self, shape: &Shape, value: impl Fn(u64) -> T) -> Rows<Vec<T>> {
        let values = (0..shape.rows).map(|_| value(self.next() >> 16)).collect();
        Rows { values, valid: self.valid(shape, 0) }
    }

    pub fn bools(&mut self, shape: &Shape, offset: usize) -> Bools {
        Rows { values: self.bits(offset, shape.rows, 50), valid: self.valid(shape, offset) }
    }

    /// That many integers, each one of four; a tenth of them null, if some can be.
    fn few(&mut self, count: usize, has_nulls: bool) -> Rows<Vec<i64>> {
        let values = (0..count).map(|_| self.below(4) as i64).collect();
        Rows { values, valid: has_nulls.then(|| self.bits(0, count, 90)) }
    }

    /// Records of two integers; the first is one of four, and null in a tenth of the rows if some
    /// can be.
    pub fn records(&mut self, shape: &Shape, has_nulls: bool) -> Records {
        let first = self.few(shape.rows, has_nulls);
        let Rows { values: second, valid } = self.rows(shape, |x| x as i64);
        Rows { values: (first, second), valid }
    }

    /// Lists of four integers each, or of none to seven.
    pub fn lists(&mut self, shape: &Shape, are_even: bool, has_nulls: bool) -> Lists {
        let mut ends = vec![];
        for _ in 0..shape.rows {
            ends.push(ends.last().unwrap_or(&0) + if are_even { 4 } else { self.below(8) as usize });
        }
        let elements = self.few(*ends.last().unwrap_or(&0), has_nulls);
        Rows { values: (elements, ends), valid: self.valid(shape, 0) }
    }

    /// A code below the count in each row.
    pub fn codes(&mut self, shape: &Shape, count: usize) -> Vec<u32> {
        (0..shape.rows).map(|_| self.below(count as u64) as u32).collect()
    }

    /// A word of a short list in each row, or a line of one.
    pub fn words(&mut self, shape: &Shape, are_long: bool) -> Texts {
        let list = if are_long { LINES } else { WORDS };
        self.rows(shape, |chance| list[chance as usize % list.len()].into())
    }

    /// A text that is not ASCII in each row.
    pub fn names(&mut self, shape: &Shape) -> Texts {
        self.rows(shape, |chance| NAMES[chance as usize % NAMES.len()].into())
    }

    /// One of a hundred texts in each row; long ones begin alike.
    pub fn texts(&mut self, shape: &Shape, width: Width) -> Texts {
        let pool: Vec<String> = (0..100)
            .map(|_| {
                let own: String = (0..8).map(|_| char::from(b'a' + self.below(26) as u8)).collect();
                let width = match width {
                    Width::Fixed(width) => width,
                    Width::Mixed => self.below(41) as usize,
                };
                format!("{:m>width$}", &own[..width.min(8)])
            })
            .collect();
        self.rows(shape, |chance| pool[chance as usize % 100].clone())
    }
}
