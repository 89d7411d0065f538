//! Instructions of the kernel, of plain Rust, of plain insertion, of the two ribbons apart and of a window made afresh, one
//! call at a time, for `bench/run.py` to print.
//!
//! Run under callgrind it leaves one count for each call. Before that it holds every call of the kernel to the plain
//! versions, in the reply and in all lent memory, and stops where they differ. With an operation, a rank and a number of
//! letters it prints the nanoseconds of one call of the kernel instead.

mod callgrind;
mod inputs;
mod kernel;
mod operations;
mod plain;
mod timing;

use inputs::{Input, Lent};
use operations::{Call, Operation};
use std::ffi::CString;
use std::hint::black_box;

const RANKS: [usize; 3] = [4, 16, 64];
const LETTERS: [usize; 3] = [256, 512, 1024];

/// The letters of a word whose class is counted.
const FEW: [usize; 3] = [5, 10, 20];

fn fail(message: &str) -> ! {
    eprintln!("{message}");
    std::process::exit(1)
}

/// Stops where a call does not answer and leave memory as the kernel does.
fn agree(operation: &Operation, input: &Input, what: &str, call: Call) {
    let mut kernel = (operation.lend)(input);
    let mut lent = kernel.clone();
    let said = (operation.kernel)(input, &mut kernel);
    let reply = call(input, &mut lent);
    if said != reply || kernel != lent {
        let (name, rank, letters) = (operation.name, input.rank, input.count);
        fail(&format!(
            "{name} and {what} differ at rank {rank}, {letters} letters: {said:?}, {reply:?}"
        ));
    }
}

/// One count, of a call that was made once before, so that its code is bound and its memory touched.
fn count(name: &str, lent: Lent, input: &Input, call: Call) {
    let name = CString::new(name).expect("a name without zero bytes");
    let call = black_box(call);
    call(black_box(input), &mut lent.clone());
    let mut lent = black_box(lent);
    callgrind::zero();
    let reply = call(input, &mut lent);
    callgrind::dump(&name);
    black_box((reply, lent));
}

/// What a count itself costs, for every other to be lessened by.
fn count_nothing() {
    let input = Input::new(RANKS[0], LETTERS[0]);
    count("nothing,0,0,1,nothing", Lent::new(), &input, |_, _| [0; 6]);
}

/// The counts of one operation on one input, once its calls have been found to agree.
fn count_operation(operation: &Operation, input: &Input) {
    let mut calls = vec![("plain", operation.plain)];
    calls.extend(operation.insertion.map(|call| ("insertion", call)));
    calls.extend(operation.apart.map(|call| ("apart", call)));
    calls.extend(operation.afresh.map(|call| ("afresh", call)));
    for &(what, call) in &calls {
        agree(operation, input, what, call);
    }
    calls.push(("kernel", operation.kernel));
    for (what, call) in calls {
        let Operation {
            name, unit, lend, ..
        } = operation;
        let units = unit.of(input);
        let name = format!("{name},{},{},{units},{what}", input.rank, input.count);
        count(&name, lend(input), input, call);
    }
}

fn count_all() {
    count_nothing();
    for rank in RANKS {
        for letters in LETTERS {
            let input = Input::new(rank, letters);
            for operation in operations::all() {
                count_operation(&operation, &input);
            }
        }
        for letters in FEW {
            let input = Input::new(rank, letters);
            for operation in operations::of_classes() {
                count_operation(&operation, &input);
            }
        }
    }
}

/// The time of a named operation, if there is one of that name and the numbers can be drawn for.
fn time(name: &str, rank: &str, letters: &str) -> Option<u128> {
    let operation = operations::all().find(|known| known.name == name)?;
    let rank = rank.parse().ok().filter(|rank| RANKS.contains(rank))?;
    let letters = letters
        .parse()
        .ok()
        .filter(|letters| (1..=LETTERS[2]).contains(letters))?;
    Some(timing::nanoseconds(&operation, &Input::new(rank, letters)))
}

fn main() {
    let arguments: Vec<String> = std::env::args().skip(1).collect();
    match arguments.as_slice() {
        [] => count_all(),
        [name, rank, letters] => match time(name, rank, letters) {
            Some(nanoseconds) => println!("{nanoseconds}"),
            None => fail("no such operation, rank or number of letters"),
        },
        _ => fail("usage: bench [OPERATION RANK LETTERS]"),
    }
}
