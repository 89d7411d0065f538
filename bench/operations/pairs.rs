//! Pairs: insertion, departure and the way back.

use super::{count, done, operation, Operation, Unit};
use crate::inputs::{Input, Lent, Pair};
use crate::kernel::*;
use crate::plain::checks::{check_counted_pair, check_pair};
use crate::plain::{insertion, pairs};

/// The kernel's departure from a window of all letters of an input.
fn remove_oldest(i: &Input, m: &mut Lent) -> Reply {
    call!(
        luchtrav_remove_oldest,
        i.rank,
        i.count,
        [mut m.letters],
        [mut m.marks],
        [mut m.entries],
        m.counts.as_mut_ptr()
    )
}

/// The same in plain Rust.
fn plain_departure(i: &Input, m: &mut Lent) -> Reply {
    count(pairs::remove_oldest(
        i.rank,
        i.count,
        &mut m.letters,
        &mut m.marks,
        &mut m.entries,
        &mut m.counts,
    ))
}

/// The same by two other calls of the kernel: the way back to the word, and the pair of its other letters.
fn made_afresh(i: &Input, m: &mut Lent) -> Reply {
    let mut word = [0; 1024];
    let back = call!(
        luchtrav_word_of_pair,
        i.rank,
        [m.letters[..i.count]],
        [m.marks[..i.count]],
        [m.entries[..i.count]],
        m.counts.as_ptr(),
        [mut word]
    );
    assert!(back[0] == 0, "window refused");
    call!(
        luchtrav_pair_of_word,
        i.rank,
        [word[1..i.count]],
        [mut m.letters],
        [mut m.marks],
        [mut m.entries],
        m.counts.as_mut_ptr()
    )
}

/// The letters that stay, inserted one by one in plain Rust.
fn inserted_afresh(i: &Input, window: &Pair, m: &mut Lent) -> Reply {
    count(insertion::pair_of_word(
        i.rank,
        &window.word[1..],
        &mut m.letters,
        &mut m.marks,
        &mut m.entries,
        &mut m.counts,
    ))
}

pub const OPERATIONS: [Operation; 6] = [
    operation(
        "check_pair",
        |i, _| {
            call!(
                luchtrav_check_pair,
                i.rank,
                [i.letters],
                [i.marks],
                [i.entries]
            )
        },
        |i, _| done(check_pair(i.rank, &i.letters, &i.marks, &i.entries)),
    ),
    operation(
        "check_counted_pair",
        |i, _| {
            call!(
                luchtrav_check_counted_pair,
                i.rank,
                [i.letters],
                [i.marks],
                [i.entries],
                i.counts.as_ptr()
            )
        },
        |i, _| done(check_counted_pair(i.rank, i.tableau(), &i.entries)),
    ),
    Operation {
        unit: Unit::CellBefore,
        lend: |i| Lent::holding(&i.shorter),
        ..operation(
            "insert_letter",
            |i, m| {
                call!(
                    luchtrav_insert_letter,
                    i.rank,
                    i.count - 1,
                    1,
                    [mut m.letters],
                    [mut m.marks],
                    [mut m.entries],
                    m.counts.as_mut_ptr()
                )
            },
            |i, m| {
                count(pairs::insert_letter(
                    i.rank,
                    i.count - 1,
                    1,
                    &mut m.letters,
                    &mut m.marks,
                    &mut m.entries,
                    &mut m.counts,
                ))
            },
        )
    },
    Operation {
        lend: |i| Lent::holding(&i.first_leaves),
        insertion: Some(|i, m| inserted_afresh(i, &i.first_leaves, m)),
        afresh: Some(made_afresh),
        ..operation("remove_oldest", remove_oldest, plain_departure)
    },
    Operation {
        lend: |i| Lent::holding(&i.last_leaves),
        insertion: Some(|i, m| inserted_afresh(i, &i.last_leaves, m)),
        afresh: Some(made_afresh),
        ..operation("remove_oldest:last", remove_oldest, plain_departure)
    },
    operation(
        "word_of_pair",
        |i, m| {
            call!(
                luchtrav_word_of_pair,
                i.rank,
                [i.letters],
                [i.marks],
                [i.entries],
                i.counts.as_ptr(),
                [mut m.letters]
            )
        },
        |i, m| {
            count(pairs::word_of_pair(
                i.rank,
                i.tableau(),
                &i.entries,
                &mut m.letters,
            ))
        },
    ),
];
