//! The time of a case on both sides.

use crate::columns::Answer;
use std::cell::{Cell, RefCell};
use std::hint::black_box;
use std::rc::Rc;
use std::time::Duration;

unsafe extern "C" {
    fn malloc_trim(pad: usize) -> i32;
    fn mallinfo2() -> Allocated;
    fn clock_gettime(clock: i32, time: *mut Time) -> i32;
}

/// A clock of the C library.
#[repr(C)]
#[derive(Default)]
struct Time {
    seconds: i64,
    nanoseconds: i64,
}

/// The clock of the calling thread's processor time, on Linux.
const THREAD_TIME: i32 = 3;

/// The processor time of this thread: what others take meanwhile does not count.
fn thread_time() -> Duration {
    let mut time = Time::default();
    // SAFETY: it writes one time there
    unsafe { clock_gettime(THREAD_TIME, &mut time) };
    Duration::new(time.seconds as u64, time.nanoseconds as u32)
}

/// The C library's memory statistics, in its order.
#[repr(C)]
struct Allocated {
    _arena: [usize; 4],
    mapped: usize,
    _free: [usize; 2],
    in_use: usize,
    _kept: [usize; 2],
}

/// How many bytes were allocated and not freed.
fn bytes_in_use() -> usize {
    // SAFETY: it takes nothing, and returns by value
    let told = unsafe { mallinfo2() };
    told.in_use + told.mapped
}

thread_local! {
    static BEFORE: Cell<Option<usize>> = const { Cell::new(None) };
    static HELD: Cell<Option<usize>> = const { Cell::new(None) };
}

/// Allocations from now on, until the first call is timed, are the project's columns.
pub fn columns_begin() {
    BEFORE.set(Some(bytes_in_use()));
}

/// One way to do it in Rust, over existing columns.
pub struct Form {
    pub name: &'static str,
    calls: Box<dyn Fn(usize)>,
    sum: Box<dyn Fn() -> u64>,
}

pub fn form<I: 'static, A: Answer>(name: &'static str, input: &Rc<I>, kernel: impl Fn(&I) -> A + 'static) -> Form {
    let call = Rc::new({
        let input = input.clone();
        move || kernel(black_box(&input))
    });
    let again = call.clone();
    let calls = move |repeat| (0..repeat).for_each(|_| drop(black_box(call())));
    Form { name, calls: Box::new(calls), sum: Box::new(move || again().sum()) }
}

/// The project's call, which makes its columns, makes the call as often as `bench_next` asks for,
/// and returns a checksum; and the forms in Rust.
pub struct Case {
    pub name: String,
    pub ours: Box<dyn Fn() -> u64>,
    pub forms: Vec<Form>,
}

impl Case {
    /// Whether all forms agree, and which do not.
    pub fn sum(&self) -> u64 {
        let sums: Vec<u64> = self.forms.iter().map(|form| (form.sum)()).collect();
        for (form, sum) in self.forms.iter().zip(&sums) {
            assert_eq!(*sum, sums[0], "{}: the answers of the form {:?} differ", self.name, form.name);
        }
        sums[0]
    }
}

/// Calls that are long enough for a good measure, and short enough to find the processor idle.
const LONG_ENOUGH: Duration = Duration::from_millis(3);

/// How many calls a turn makes, and the time of one call in each turn that counts.
struct Series {
    repeat: usize,
    times: Vec<f64>,
}

impl Series {
    const NONE: Series = Series { repeat: 1, times: Vec::new() };

    /// Whether there were enough calls for their time to count; if not, turns make twice as many.
    fn counts(&mut self, time: Duration) -> bool {
        let is_enough = time >= LONG_ENOUGH;
        if is_enough {
            self.times.push(time.as_secs_f64() / self.repeat as f64);
        } else {
            self.repeat *= 2;
            self.times.clear();
        }
        is_enough
    }
}

/// The lower quartile, the median and the upper quartile of the samples.
#[derive(Clone, Copy)]
pub struct Quartiles {
    pub low: f64,
    pub median: f64,
    pub high: f64,
}

impl Quartiles {
    fn of(seen: impl Iterator<Item = f64>) -> Quartiles {
        let mut seen: Vec<f64> = seen.collect();
        seen.sort_by(f64::total_cmp);
        let at = |part: usize| seen.get((seen.len().max(1) - 1) * part / 4).copied().unwrap_or(f64::NAN);
        Quartiles { low: at(1), median: at(2), high: at(3) }
    }
}

/// The sides take turns: the project's calls, then those of each form.
struct Turns {
    forms: Vec<Form>,
    rounds_left: usize,
    began: Option<Duration>,
    ours: Series,
    rust: Vec<Series>,
}

thread_local! {
    static TURNS: RefCell<Option<Turns>> = const { RefCell::new(None) };
}

impl Turns {
    fn forms_turn(&mut self) {
        for (form, series) in self.forms.iter().zip(&mut self.rust) {
            loop {
                let began = thread_time();
                (form.calls)(series.repeat);
                if series.counts(thread_time() - began) {
                    break;
                }
            }
        }
    }

    /// The time of the project's calls that ended now, and how many it makes next.
    fn next(&mut self, now: Duration) -> usize {
        if let Some(began) = self.began.take()
            && self.ours.counts(now - began)
        {
            self.forms_turn();
            self.rounds_left -= 1;
        }
        if self.rounds_left == 0 { 0 } else { self.ours.repeat }
    }
}

thread_local! {
    static COUNTED: Cell<Option<usize>> = const { Cell::new(None) };
}

/// That many calls of one side, for a tool that counts their instructions.
pub fn counted(case: Case, form: Option<usize>, calls: usize) {
    match form {
        Some(at) => (case.forms[at].calls)(calls),
        None => {
            COUNTED.set(Some(calls));
            (case.ours)();
        }
    }
}

/// The project's side asks between its calls how many to make next; none ends it. So its columns
/// are made once, and not timed.
#[unsafe(no_mangle)]
extern "C" fn bench_next() -> usize {
    let now = thread_time();
    if let Some(calls) = COUNTED.get() {
        COUNTED.set(Some(0));
        return calls;
    }
    if let Some(before) = BEFORE.take() {
        HELD.set(Some(bytes_in_use().saturating_sub(before)));
    }
    TURNS.with_borrow_mut(|turns| {
        let turns = turns.as_mut().expect("a case is measured");
        let repeat = turns.next(now);
        turns.began = Some(thread_time());
        repeat
    })
}

/// The project's time over that of the best form in the turns of one round each, which form that
/// is, and the median time of each form over that of the best; how many bytes its columns hold, if
/// that was requested.
pub struct Seen {
    pub held: Option<usize>,
    pub ratio: Quartiles,
    /// The median seconds of a call of the project, and of the best form.
    pub ours: f64,
    pub rust: f64,
    pub best: &'static str,
    pub forms: Vec<(&'static str, f64)>,
}

pub fn measured(case: Case, rounds: usize) -> Seen {
    // memory that earlier cases freed is joined, so that the project's texts are placed as in a new
    // process
    unsafe { malloc_trim(0) };
    let sum = case.sum();
    let rust = case.forms.iter().map(|_| Series::NONE).collect();
    let turns = Turns { forms: case.forms, rounds_left: rounds, began: None, ours: Series::NONE, rust };
    TURNS.set(Some(turns));
    assert_eq!((case.ours)(), sum, "{}: the answers of both sides differ", case.name);
    seen(TURNS.take().unwrap())
}

fn seen(turns: Turns) -> Seen {
    let middles = turns.rust.iter().map(|series| Quartiles::of(series.times.iter().copied()).median);
    let mut forms: Vec<_> = turns.forms.iter().map(|form| form.name).zip(middles).collect();
    let at = (0..forms.len()).min_by(|i, j| forms[*i].1.total_cmp(&forms[*j].1)).expect("a case has a form");
    let (best, least) = forms[at];
    for (_, time) in &mut forms {
        *time /= least;
    }
    // the last turns of both sides are pairs: a side that began again with more calls has lost its
    // earlier ones
    let pairs = turns.ours.times.iter().rev().zip(turns.rust[at].times.iter().rev());
    let ratio = Quartiles::of(pairs.map(|(ours, rust)| ours / rust));
    let ours = Quartiles::of(turns.ours.times.iter().copied()).median;
    Seen { held: HELD.take(), ratio, ours, rust: least, best, forms }
}

/// Only the forms: the time of each over that of the best.
pub fn forms_alone(case: Case, rounds: usize) -> Seen {
    case.sum();
    let rust = case.forms.iter().map(|_| Series::NONE).collect();
    let mut turns = Turns { forms: case.forms, rounds_left: rounds, began: None, ours: Series::NONE, rust };
    for _ in 0..rounds {
        turns.forms_turn();
    }
    seen(turns)
}
