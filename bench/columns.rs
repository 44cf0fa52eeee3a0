//! Columns in Rust: packed bits, lists, texts as strings and as views; and checksums of results.

/// Bits from bit `offset` on, the least significant first. One more word follows them.
#[derive(Clone)]
pub struct Bits {
    pub words: Vec<u64>,
    pub offset: usize,
    pub len: usize,
}

impl Bits {
    pub fn bytes(&self) -> &[u8] {
        // SAFETY: eight bytes a word, on a little-endian machine
        unsafe { std::slice::from_raw_parts(self.words.as_ptr().cast(), 8 * self.words.len()) }
    }

    /// The bits from bit 64 * k on, zero past the end.
    fn word(&self, k: usize) -> u64 {
        let word = if self.offset == 0 { self.words[k] } else { overlapping(&self.words, self.offset, k) };
        match self.len - 64 * k {
            count @ 0..64 => word & ((1 << count) - 1),
            _ => word,
        }
    }

    pub fn bit(&self, i: usize) -> bool {
        self.words[i / 64] >> (i % 64) & 1 == 1
    }
}

/// 64 bits that begin within a word, from that word and the one after it; a shift of 64 is none.
#[inline(always)]
pub fn overlapping(words: &[u64], shift: usize, k: usize) -> u64 {
    words[k] >> shift | words[k + 1] << 1 << (63 - shift)
}

/// Values, and which rows are not null, if any can be null.
#[derive(Clone)]
pub struct Rows<V> {
    pub values: V,
    pub valid: Option<Bits>,
}

pub type Bools = Rows<Bits>;
pub type Ints = Rows<Vec<i32>>;
pub type Texts = Rows<Vec<String>>;
pub type TextViews = Rows<Views>;

// ---- texts as views

/// 16 bytes for a text, as Arrow's and Umbra's: its length and its first four bytes, then the eight
/// that follow if it has no more than twelve (zeros past its end), else its offset in the buffer.
#[derive(Clone, Copy, PartialEq, Eq)]
#[repr(C)]
pub struct View {
    pub head: u64,
    pub tail: u64,
}

/// The greatest size of an inlined text.
pub const INLINE: usize = 12;

/// How many empty views follow those of a column.
const BEHIND: usize = 3;

impl View {
    /// The view of a text at `offset` of the buffer, if it is long.
    fn of(text: &[u8], offset: usize) -> View {
        let mut first = [0; INLINE];
        let count = text.len().min(INLINE);
        first[..count].copy_from_slice(&text[..count]);
        let (prefix, rest) = first.split_first_chunk::<4>().unwrap();
        let head = text.len() as u64 | u64::from(u32::from_le_bytes(*prefix)) << 32;
        let tail = if text.len() <= INLINE { u64::from_le_bytes(rest.try_into().unwrap()) } else { offset as u64 };
        View { head, tail }
    }

    #[inline(always)]
    pub fn len(self) -> usize {
        self.head as u32 as usize
    }

    /// The first four bytes, big-endian.
    #[inline(always)]
    pub fn prefix(self) -> u32 {
        ((self.head >> 32) as u32).swap_bytes()
    }
}

/// Texts of one buffer.
#[derive(Clone)]
pub struct Views {
    /// Empty ones follow them, so that vectors can be read from any byte of a text.
    views: Vec<View>,
    /// 32 more bytes follow the texts.
    pub buffer: Vec<u8>,
}

impl Views {
    pub fn of(texts: &[String]) -> Views {
        let (mut views, mut buffer) = (Vec::with_capacity(texts.len() + BEHIND), vec![]);
        for text in texts {
            views.push(View::of(text.as_bytes(), buffer.len()));
            if text.len() > INLINE {
                buffer.extend_from_slice(text.as_bytes());
            }
        }
        views.extend([View { head: 0, tail: 0 }; BEHIND]);
        buffer.extend_from_slice(&[0; 32]);
        Views { views, buffer }
    }

    /// The texts at these indices, over a copy of the buffer.
    pub fn at(&self, places: &[u32]) -> Views {
        let mut views = Vec::with_capacity(places.len() + BEHIND);
        views.extend(places.iter().map(|place| self.views[*place as usize]));
        views.extend([View { head: 0, tail: 0 }; BEHIND]);
        Views { views, buffer: self.buffer.clone() }
    }

    pub fn rows(&self) -> &[View] {
        &self.views[..self.views.len() - BEHIND]
    }

    /// Where the bytes of one of the texts are.
    #[inline(always)]
    pub fn start(&self, view: &View) -> *const u8 {
        if view.len() <= INLINE {
            (&raw const *view).cast::<u8>().wrapping_add(4)
        } else {
            self.buffer.as_ptr().wrapping_add(view.tail as usize)
        }
    }

    #[inline(always)]
    pub fn bytes<'a>(&'a self, view: &'a View) -> &'a [u8] {
        // SAFETY: the view is one of these, and its bytes are where it says
        unsafe { std::slice::from_raw_parts(self.start(view), view.len()) }
    }
}

pub fn views_of(texts: &Texts) -> TextViews {
    Rows { values: Views::of(&texts.values), valid: texts.valid.clone() }
}

// ---- checksums, as kernels/src/checksum.rt makes them

/// The input of a column's checksum. Values under a null do not count.
pub trait Answer {
    fn sum(&self) -> u64;
}

fn joined(sum: u64, word: u64) -> u64 {
    (sum.rotate_left(7) ^ word).wrapping_mul(0x9e37_79b9_7f4a_7c15)
}

impl Answer for Bools {
    fn sum(&self) -> u64 {
        (0..self.values.len / 64 + 1).fold(0, |sum, k| {
            let there = self.valid.as_ref().map(|valid| valid.word(k));
            let sum = joined(sum, self.values.word(k) & there.unwrap_or(u64::MAX));
            there.map_or(sum, |there| joined(sum, there))
        })
    }
}

/// The 64 bits of an integer.
pub trait Low: Copy {
    fn low(self) -> u64;
}

macro_rules! low {
    ($($t:ident)*) => {
        $(impl Low for $t {
            fn low(self) -> u64 {
                self as u64
            }
        })*
    };
}

low!(i8 i16 i32 i64 u8 u16 u32 u64);

impl<T: Low> Answer for Rows<Vec<T>> {
    fn sum(&self) -> u64 {
        self.values.iter().enumerate().fold(0, |sum, (i, value)| {
            let valid = self.valid.as_ref().map_or(1, |valid| u64::from(valid.bit(i)));
            joined(sum, value.low().wrapping_mul(valid).wrapping_add(valid))
        })
    }
}

impl Answer for TextViews {
    fn sum(&self) -> u64 {
        self.values.rows().iter().enumerate().fold(0, |sum, (i, view)| {
            let valid = self.valid.as_ref().map_or(1, |valid| u64::from(valid.bit(i)));
            joined(sum, view.head.wrapping_mul(valid).wrapping_add(valid))
        })
    }
}
