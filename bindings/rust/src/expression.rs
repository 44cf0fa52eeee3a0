//! Expressions, read once and run over many batches.
use crate::answers::Answers;
use crate::column::{Column, Field, Kind, Type};
use crate::error::{checked, told, Error};
use crate::raw::{self, Handle};

/// An expression over the fields of a scope. Threads may share it, and pass it on to one another.
///
/// ```
/// fn shares_and_sends<T: Sync + Send>() {}
/// shares_and_sends::<yurkije::Expression>();
/// ```
#[derive(Debug)]
pub struct Expression {
    raw: Handle,
}

// SAFETY: the calls through `&self` only read the handle, and the library lets threads make them at
// once.
unsafe impl Sync for Expression {}

// SAFETY: a handle owns what it points to, alone, and the library lets another thread than the one that
// filled it use and free it.
unsafe impl Send for Expression {}

/// Takes a text that a call writes into a buffer, and whose length it returns.
fn text_of(call: impl Fn(*mut u8, usize, &mut usize) -> u32) -> Result<String, Error> {
    let mut length = 0;
    call(std::ptr::NonNull::dangling().as_ptr(), 0, &mut length);
    let mut room = vec![0; length];
    checked(call(room.as_mut_ptr(), room.len(), &mut length))?;
    Ok(String::from_utf8_lossy(&room).into_owned())
}

impl Expression {
    /// Reads the answers of a text over fields, `price * stock as worth, price > 100`
    /// (`docs/EXPRESSIONS.md`). Fails with the position in the text where it is wrong.
    pub fn new(text: &str, fields: &[Field<'_>]) -> Result<Expression, Error> {
        let mut expression = Expression { raw: Handle::EMPTY };
        let fields: Vec<raw::Field<'_>> = fields.iter().map(lend).collect();
        told(|told| {
            // SAFETY: the handle is empty, and text and fields are slices of Rust that live as long
            // as the call.
            unsafe {
                raw::yk_expression_new(text.as_ptr(), text.len(), fields.as_ptr(), fields.len(), &mut expression.raw, told)
            }
        })?;
        Ok(expression)
    }

    pub(crate) fn handle(&self) -> *const Handle {
        &self.raw
    }

    /// The fields: their names and types.
    pub fn fields(&self) -> Result<Vec<(String, Type)>, Error> {
        let mut count = 0;
        // SAFETY: here and below the handle is read, and values of Rust are written.
        checked(unsafe { raw::yk_field_count(self.handle(), &mut count) })?;
        let name = |field| text_of(|room, size, length| unsafe { raw::yk_field_name(self.handle(), field, room, size, length) });
        let of = |field| type_of(|kind| unsafe { raw::yk_field_type(self.handle(), field, kind) });
        (0..count).map(|field| Ok((name(field)?, of(field)?))).collect()
    }

    /// The numbers of the fields that an answer reads, ascending. The columns of the others are not
    /// looked at.
    pub fn fields_read(&self) -> Result<Vec<usize>, Error> {
        let mut count = 0;
        checked(unsafe { raw::yk_field_count(self.handle(), &mut count) })?;
        let mut numbers = vec![0; count];
        checked(unsafe { raw::yk_fields_read(self.handle(), numbers.as_mut_ptr(), numbers.len(), &mut count) })?;
        numbers.truncate(count);
        Ok(numbers)
    }

    /// The answers: their names and types.
    pub fn answers(&self) -> Result<Vec<(String, Type)>, Error> {
        let mut count = 0;
        checked(unsafe { raw::yk_answer_count(self.handle(), &mut count) })?;
        let name = |answer| text_of(|room, size, length| unsafe { raw::yk_answer_name(self.handle(), answer, room, size, length) });
        let of = |answer| type_of(|kind| unsafe { raw::yk_answer_type(self.handle(), answer, kind) });
        (0..count).map(|answer| Ok((name(answer)?, of(answer)?))).collect()
    }

    /// The text of an answer, as it was read, or as it is run, optimized.
    pub fn answer_text(&self, answer: usize, optimized: bool) -> Result<String, Error> {
        text_of(|room, size, length| unsafe { raw::yk_answer_text(self.handle(), answer, optimized, room, size, length) })
    }

    /// Runs the expression over a batch: as many columns as there are fields, in their order, each
    /// of the field's type and of `rows` rows. Fails with the column and row that are wrong, or
    /// with the first row in which an answer faults.
    pub fn run(&self, columns: &[Column<'_>], rows: usize) -> Result<Answers, Error> {
        let raws: Vec<raw::Column<'_>> = columns.iter().map(|column| column.raw).collect();
        let kinds: Vec<Kind> = self.answers()?.into_iter().map(|(_, of)| of.kind).collect();
        let mut answers = Answers { raw: Handle::EMPTY, kinds };
        told(|told| {
            // SAFETY: the handle of the expression is read, that of the answers belongs to them alone,
            // and the columns borrow slices of Rust.
            unsafe { raw::yk_run(self.handle(), raws.as_ptr(), raws.len(), rows, &mut answers.raw, told) }
        })?;
        Ok(answers)
    }
}

fn lend<'a>(field: &Field<'a>) -> raw::Field<'a> {
    raw::Field { name: field.name.as_bytes().into(), kind: field.of.kind.number(), nullable: field.of.nullable }
}

fn type_of(call: impl Fn(&mut raw::Type) -> u32) -> Result<Type, Error> {
    let mut raw = raw::Type::default();
    checked(call(&mut raw))?;
    Ok(Type { kind: Kind::of(raw.kind), nullable: raw.nullable })
}

impl Drop for Expression {
    fn drop(&mut self) {
        // SAFETY: the handle is as the library left it, and nothing uses it after this.
        unsafe { raw::yk_expression_free(&mut self.raw) }
    }
}

/// The library's name and version, as `yurkije 0.1.0`.
pub fn version() -> String {
    text_of(|room, size, length| unsafe { raw::yk_version(room, size, length) }).unwrap_or_default()
}

/// Whether the linked library has the interface that this crate needs.
pub fn is_compatible() -> bool {
    // SAFETY: the call reads and writes nothing.
    unsafe { raw::yk_abi_version() == raw::ABI_VERSION }
}
