//! The structs and calls of `yurkije.h`.
use std::marker::PhantomData;

pub const ABI_VERSION: u32 = 1;
pub const NONE: usize = usize::MAX;

/// A handle of the library. Zeroed it is empty; it may be moved, never copied. Its owners say
/// themselves that threads may share it and pass it on.
#[repr(C)]
#[derive(Debug)]
pub struct Handle {
    at: *mut u8,
    live: bool,
}

impl Handle {
    pub const EMPTY: Handle = Handle { at: std::ptr::null_mut(), live: false };
}

/// A slice for reading.
#[repr(C)]
#[derive(Debug)]
pub struct Slice<'a, T> {
    at: *const T,
    length: usize,
    borrowed: PhantomData<&'a [T]>,
}

impl<T> Clone for Slice<'_, T> {
    fn clone(&self) -> Self {
        *self
    }
}

impl<T> Copy for Slice<'_, T> {}

impl<'a, T> From<&'a [T]> for Slice<'a, T> {
    fn from(items: &'a [T]) -> Self {
        Slice { at: items.as_ptr(), length: items.len(), borrowed: PhantomData }
    }
}

/// Floats are lent where integers of their size lie.
impl<'a> From<&'a [f64]> for Slice<'a, i64> {
    fn from(items: &'a [f64]) -> Self {
        Slice { at: items.as_ptr().cast(), length: items.len(), borrowed: PhantomData }
    }
}

impl<'a> From<&'a [f32]> for Slice<'a, i32> {
    fn from(items: &'a [f32]) -> Self {
        Slice { at: items.as_ptr().cast(), length: items.len(), borrowed: PhantomData }
    }
}

impl<T> Default for Slice<'_, T> {
    fn default() -> Self {
        Slice::from(&[][..])
    }
}

/// A slice for writing.
#[repr(C)]
#[derive(Debug)]
pub struct Room<'a, T> {
    at: *mut T,
    length: usize,
    borrowed: PhantomData<&'a mut [T]>,
}

impl<'a, T> From<&'a mut [T]> for Room<'a, T> {
    fn from(items: &'a mut [T]) -> Self {
        Room { at: items.as_mut_ptr(), length: items.len(), borrowed: PhantomData }
    }
}

impl<'a> From<&'a mut [f64]> for Room<'a, i64> {
    fn from(items: &'a mut [f64]) -> Self {
        Room { at: items.as_mut_ptr().cast(), length: items.len(), borrowed: PhantomData }
    }
}

impl<'a> From<&'a mut [f32]> for Room<'a, i32> {
    fn from(items: &'a mut [f32]) -> Self {
        Room { at: items.as_mut_ptr().cast(), length: items.len(), borrowed: PhantomData }
    }
}

impl<T> Default for Room<'_, T> {
    fn default() -> Self {
        Room::from(&mut [][..])
    }
}

#[repr(C)]
pub struct Told<'a> {
    pub status: u32,
    pub answer: usize,
    pub column: usize,
    pub row: usize,
    pub byte: usize,
    pub line: usize,
    pub character: usize,
    pub message: Room<'a, u8>,
    pub message_length: usize,
}

#[repr(C)]
pub struct Field<'a> {
    pub name: Slice<'a, u8>,
    pub kind: u32,
    pub nullable: bool,
}

#[repr(C)]
#[derive(Default)]
pub struct Type {
    pub kind: u32,
    pub nullable: bool,
}

#[repr(C)]
#[derive(Clone, Copy, Default, Debug)]
pub struct Column<'a> {
    pub kind: u32,
    pub nullable: bool,
    pub rows: usize,
    pub offset: usize,
    pub validity: Slice<'a, u8>,
    pub bools: Slice<'a, u8>,
    pub i8: Slice<'a, i8>,
    pub i16: Slice<'a, i16>,
    pub i32: Slice<'a, i32>,
    pub i64: Slice<'a, i64>,
    pub u8: Slice<'a, u8>,
    pub u16: Slice<'a, u16>,
    pub u32: Slice<'a, u32>,
    pub u64: Slice<'a, u64>,
    pub offsets32: Slice<'a, i32>,
    pub offsets64: Slice<'a, i64>,
    pub data: Slice<'a, u8>,
    pub views: Slice<'a, [u8; 16]>,
    pub buffers: Slice<'a, Slice<'a, u8>>,
}

#[repr(C)]
pub struct Statistics<'a> {
    pub low: Column<'a>,
    pub high: Column<'a>,
    pub nulls: Column<'a>,
}

#[repr(C)]
pub struct Verdicts<'a> {
    pub verdicts: Room<'a, u8>,
    pub may_fault: Room<'a, u8>,
    pub least: Room<'a, u64>,
    pub most: Room<'a, u64>,
}

#[repr(C)]
#[derive(Default)]
pub struct Size {
    pub rows: usize,
    pub validity: usize,
    pub values: usize,
    pub offsets: usize,
    pub data: usize,
}

#[repr(C)]
#[derive(Default)]
pub struct Rooms<'a> {
    pub kind: u32,
    pub validity: Room<'a, u8>,
    pub bools: Room<'a, u8>,
    pub i8: Room<'a, i8>,
    pub i16: Room<'a, i16>,
    pub i32: Room<'a, i32>,
    pub i64: Room<'a, i64>,
    pub u8: Room<'a, u8>,
    pub u16: Room<'a, u16>,
    pub u32: Room<'a, u32>,
    pub u64: Room<'a, u64>,
    pub offsets32: Room<'a, i32>,
    pub offsets64: Room<'a, i64>,
    pub data: Room<'a, u8>,
}

extern "C" {
    pub fn yk_abi_version() -> u32;
    pub fn yk_version(room: *mut u8, room_length: usize, length: &mut usize) -> u32;
    pub fn yk_expression_new(
        text: *const u8,
        length: usize,
        fields: *const Field<'_>,
        count: usize,
        expression: *mut Handle,
        error: &mut Told<'_>,
    ) -> u32;
    pub fn yk_expression_free(expression: *mut Handle);
    pub fn yk_field_count(expression: *const Handle, count: &mut usize) -> u32;
    pub fn yk_field_name(expression: *const Handle, field: usize, room: *mut u8, room_length: usize, length: &mut usize) -> u32;
    pub fn yk_field_type(expression: *const Handle, field: usize, kind: &mut Type) -> u32;
    pub fn yk_fields_read(expression: *const Handle, numbers: *mut usize, room: usize, count: &mut usize) -> u32;
    pub fn yk_answer_count(expression: *const Handle, count: &mut usize) -> u32;
    pub fn yk_answer_name(expression: *const Handle, answer: usize, room: *mut u8, room_length: usize, length: &mut usize) -> u32;
    pub fn yk_answer_type(expression: *const Handle, answer: usize, kind: &mut Type) -> u32;
    pub fn yk_answer_text(
        expression: *const Handle,
        answer: usize,
        optimized: bool,
        room: *mut u8,
        room_length: usize,
        length: &mut usize,
    ) -> u32;
    pub fn yk_run(
        expression: *const Handle,
        columns: *const Column<'_>,
        count: usize,
        rows: usize,
        answers: *mut Handle,
        error: &mut Told<'_>,
    ) -> u32;
    pub fn yk_prune(
        expression: *const Handle,
        answer: usize,
        statistics: *const Statistics<'_>,
        count: usize,
        rows: *const u64,
        groups: usize,
        verdicts: &mut Verdicts<'_>,
        error: &mut Told<'_>,
    ) -> u32;
    pub fn yk_answers_free(answers: *mut Handle);
    pub fn yk_answer_size(answers: *const Handle, answer: usize, size: &mut Size) -> u32;
    pub fn yk_answer_copy(answers: *const Handle, answer: usize, room: &mut Rooms<'_>) -> u32;
    pub fn yk_select(answers: *const Handle, answer: usize, numbers: *mut u64, room: usize, count: &mut usize) -> u32;
    pub fn yk_mask(answers: *const Handle, answer: usize, mask: *mut u8, room: usize) -> u32;
}
