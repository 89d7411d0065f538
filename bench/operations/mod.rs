//! Every function of the C interface beside its plain Rust version, as calls on one input and lent memory.

/// A call of the kernel: a number, and the pointer to letter counts, is handed over as it is, a slice in brackets as a pointer
/// and a count.
macro_rules! call {
    (@ $f:ident ($($given:expr),*)) => {
        // SAFETY: each pointer comes from a slice, with the count of its elements, or from an array of 64 counts, and no two
        // of a call overlap where one is written.
        Reply::from(unsafe { $f($($given),*) })
    };
    (@ $f:ident ($($given:expr),*), [mut $slice:expr] $($rest:tt)*) => {
        call!(@ $f ($($given,)* $slice.as_mut_ptr(), $slice.len()) $($rest)*)
    };
    (@ $f:ident ($($given:expr),*), [$slice:expr] $($rest:tt)*) => {
        call!(@ $f ($($given,)* $slice.as_ptr(), $slice.len()) $($rest)*)
    };
    (@ $f:ident ($($given:expr),*), $number:expr $(, $($rest:tt)*)?) => {
        call!(@ $f ($($given,)* $number) $(, $($rest)*)?)
    };
    ($f:ident, $($given:tt)*) => {
        call!(@ $f (), $($given)*)
    };
}

mod classes;
mod lines;
mod pairs;
mod runs;
mod tableaux;
mod words;

use crate::inputs::{Input, Lent};
use crate::kernel::Reply;
use crate::plain::checks::Answer;
use crate::plain::tableaux::Cell;

/// One call.
pub type Call = fn(&Input, &mut Lent) -> Reply;

/// What a call costs is told for each of these.
pub enum Unit {
    /// A letter of the word, a cell of the tableau or pair or of the two factors, an item of the line.
    Letter,
    /// A letter of one of two words, a cell of one of two tableaux that are compared.
    LetterOfBoth,
    /// A cell that stands there before an insertion.
    CellBefore,
    /// An item of a C line: a letter with its count.
    Item,
    /// The whole call, where no letters go in, or few.
    Call,
}

impl Unit {
    /// How many of them an input has.
    pub fn of(&self, input: &Input) -> usize {
        match self {
            Unit::Letter => input.count,
            Unit::LetterOfBoth => 2 * input.count,
            Unit::CellBefore => input.count - 1,
            Unit::Item => input.counts.iter().filter(|&&count| count > 0).count(),
            Unit::Call => 1,
        }
    }
}

/// One operation: what is lent to it, and the calls that do it.
pub struct Operation {
    pub name: &'static str,
    pub unit: Unit,
    pub lend: fn(&Input) -> Lent,
    pub kernel: Call,
    pub plain: Call,
    pub insertion: Option<Call>,
    pub apart: Option<Call>,
    pub afresh: Option<Call>,
}

/// The reply of a plain version.
fn said<const N: usize, T>(answer: Answer<T>, values: impl Fn(T) -> [usize; N]) -> Reply {
    let mut reply = [0; 6];
    match answer {
        Ok(value) => reply[2..2 + N].copy_from_slice(&values(value)),
        Err(refusal) => reply[..2].copy_from_slice(&[refusal.number, refusal.place]),
    }
    reply
}

fn done(answer: Answer<()>) -> Reply {
    said(answer, |()| [])
}

fn changed(answer: Answer<usize>) -> Reply {
    said(answer, |place| [place])
}

fn count(answer: Answer<usize>) -> Reply {
    said(answer, |count| [count])
}

fn value(answer: Answer<u64>) -> Reply {
    said(answer, |value| [value as usize])
}

fn cell(answer: Answer<Option<Cell>>) -> Reply {
    said(answer, |found| {
        found.map_or([0; 4], |(letter, row, column)| {
            [1, usize::from(letter), row, column]
        })
    })
}

/// An operation that reads its input and writes into fresh memory.
const fn operation(name: &'static str, kernel: Call, plain: Call) -> Operation {
    Operation {
        name,
        unit: Unit::Letter,
        lend: |_| Lent::new(),
        kernel,
        plain,
        insertion: None,
        apart: None,
        afresh: None,
    }
}

/// All operations on words and tableaux of any length, in the order of the header, C lines after all others.
pub fn all() -> impl Iterator<Item = Operation> {
    words::OPERATIONS
        .into_iter()
        .chain(tableaux::OPERATIONS)
        .chain(pairs::OPERATIONS)
        .chain(lines::OPERATIONS)
        .chain(runs::OPERATIONS)
}

/// Those on the words of a class, which take at most 20 letters.
pub fn of_classes() -> impl Iterator<Item = Operation> {
    classes::OPERATIONS.into_iter()
}
