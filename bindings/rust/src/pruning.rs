//! What is known of a condition in groups of rows, by statistics.
use crate::column::Column;
use crate::error::{told, Error};
use crate::expression::Expression;
use crate::raw;

/// What is known of a field in each of several groups of rows, as a file keeps it for its parts: columns with an item a
/// group. A column that is left out says nothing, and a null says nothing of its group. What is said has to be so.
#[derive(Clone, Copy, Debug, Default)]
pub struct Statistics<'a> {
    /// No row that is not null is below it; of the field's type. It need not be the value of a row.
    pub low: Option<Column<'a>>,
    /// No row that is not null is above it.
    pub high: Option<Column<'a>>,
    /// How many rows are null, of `u64`.
    pub nulls: Option<Column<'a>>,
}

/// What is known of a condition in each row of a group.
#[derive(Clone, Copy, Debug, PartialEq, Eq, Hash)]
pub enum Verdict {
    /// Nothing.
    Unknown,
    /// No row is true.
    NoneTrue,
    /// Every row is true, and none faults.
    AllTrue,
}

/// What is known of a condition, as it is run, over a group of rows.
#[derive(Clone, Copy, Debug, PartialEq, Eq, Hash)]
pub struct Pruned {
    pub verdict: Verdict,
    /// Whether a row may fault: if not, a run over the group does not fail for the condition.
    pub may_fault: bool,
    /// At least and at most how many rows are true.
    pub trues: (u64, u64),
}

impl Pruned {
    /// Whether the group can be left out: no row is true, and none faults.
    pub fn skip(&self) -> bool {
        self.verdict == Verdict::NoneTrue && !self.may_fault
    }

    /// Whether the group can be taken whole.
    pub fn whole(&self) -> bool {
        self.verdict == Verdict::AllTrue
    }
}

fn lend<'a>(statistics: &Statistics<'a>) -> raw::Statistics<'a> {
    let column = |given: Option<Column<'a>>| given.map_or_else(raw::Column::default, |column| column.raw);
    raw::Statistics { low: column(statistics.low), high: column(statistics.high), nulls: column(statistics.nulls) }
}

fn verdict_of(byte: u8) -> Verdict {
    match byte {
        1 => Verdict::NoneTrue,
        2 => Verdict::AllTrue,
        _ => Verdict::Unknown,
    }
}

impl Expression {
    /// What is known of an answer, a truth value, in each group of rows without a row: by statistics of the fields, as many
    /// as there are fields, in their order, and by the number of rows of each group. It is said of the answer as it is run,
    /// and of all columns that the statistics describe. Of ends of floats that leave NaN out, the greatest float, pass the low
    /// one alone, and none that is NaN. Fails with the field, and the group, whose statistics are wrong.
    pub fn prune(&self, answer: usize, statistics: &[Statistics<'_>], rows: &[u64]) -> Result<Vec<Pruned>, Error> {
        let raws: Vec<raw::Statistics<'_>> = statistics.iter().map(lend).collect();
        let (mut verdicts, mut may_fault) = (vec![0u8; rows.len()], vec![0u8; rows.len()]);
        let (mut least, mut most) = (vec![0u64; rows.len()], vec![0u64; rows.len()]);
        let mut rooms = raw::Verdicts {
            verdicts: verdicts[..].as_mut().into(),
            may_fault: may_fault[..].as_mut().into(),
            least: least[..].as_mut().into(),
            most: most[..].as_mut().into(),
        };
        told(|told| {
            // SAFETY: the handle is read, statistics and counts borrow slices of Rust, and nothing else uses the rooms.
            unsafe {
                raw::yk_prune(self.handle(), answer, raws.as_ptr(), raws.len(), rows.as_ptr(), rows.len(), &mut rooms, told)
            }
        })?;
        let ends = least.into_iter().zip(most);
        let made = verdicts.into_iter().zip(may_fault).zip(ends);
        Ok(made.map(|((verdict, fault), trues)| Pruned { verdict: verdict_of(verdict), may_fault: fault != 0, trues }).collect())
    }
}
