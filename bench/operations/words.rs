//! Words: pair, junctions, moves, repeat counts, classes and weights.

use super::{changed, count, done, operation, said, Operation, Unit};
use crate::inputs::Lent;
use crate::kernel::*;
use crate::plain::checks::check_word;
use crate::plain::words::Side::{Lowering, Raising};
use crate::plain::{apart, insertion, words};

pub const OPERATIONS: [Operation; 10] = [
    operation(
        "check_word",
        |i, _| call!(luchtrav_check_word, i.rank, [i.word]),
        |i, _| done(check_word(i.rank, &i.word)),
    ),
    Operation {
        insertion: Some(|i, m| {
            count(insertion::pair_of_word(
                i.rank,
                &i.word,
                &mut m.letters,
                &mut m.marks,
                &mut m.entries,
                &mut m.counts,
            ))
        }),
        apart: Some(|i, m| {
            let made = apart::tableau_of_word(
                i.rank,
                &i.word,
                &mut m.letters,
                &mut m.marks,
                &mut m.counts,
            );
            count(made.and_then(|_| apart::recording_of_word(i.rank, &i.word, &mut m.entries)))
        }),
        ..operation(
            "pair_of_word",
            |i, m| {
                call!(
                    luchtrav_pair_of_word,
                    i.rank,
                    [i.word],
                    [mut m.letters],
                    [mut m.marks],
                    [mut m.entries],
                    m.counts.as_mut_ptr()
                )
            },
            |i, m| {
                count(words::pair_of_word(
                    i.rank,
                    &i.word,
                    &mut m.letters,
                    &mut m.marks,
                    &mut m.entries,
                    &mut m.counts,
                ))
            },
        )
    },
    operation(
        "junctions",
        |i, _| call!(luchtrav_junctions, i.rank, [i.word]),
        |i, _| {
            said(words::junctions(i.rank, &i.word), |(set, rows)| {
                [set as usize, rows]
            })
        },
    ),
    Operation {
        lend: |i| Lent::holding_word(&i.raising),
        ..operation(
            "raise_word",
            |i, m| call!(luchtrav_raise_word, i.rank, i.rank - 1, [mut m.letters[..i.count]]),
            |i, m| {
                changed(words::move_word(
                    Raising,
                    i.rank,
                    i.rank - 1,
                    &mut m.letters[..i.count],
                ))
            },
        )
    },
    Operation {
        lend: |i| Lent::holding_word(&i.lowering),
        ..operation(
            "lower_word",
            |i, m| call!(luchtrav_lower_word, i.rank, 1, [mut m.letters[..i.count]]),
            |i, m| {
                changed(words::move_word(
                    Lowering,
                    i.rank,
                    1,
                    &mut m.letters[..i.count],
                ))
            },
        )
    },
    operation(
        "raise_count_word",
        |i, _| {
            call!(
                luchtrav_raise_count_word,
                i.rank,
                i.rank - 1,
                [i.raising.word]
            )
        },
        |i, _| {
            count(words::repeat_word(
                Raising,
                i.rank,
                i.rank - 1,
                &i.raising.word,
            ))
        },
    ),
    operation(
        "lower_count_word",
        |i, _| call!(luchtrav_lower_count_word, i.rank, 1, [i.lowering.word]),
        |i, _| count(words::repeat_word(Lowering, i.rank, 1, &i.lowering.word)),
    ),
    Operation {
        unit: Unit::LetterOfBoth,
        ..operation(
            "same_class",
            |i, _| call!(luchtrav_same_class, i.rank, [i.word], i.rank, [i.other]),
            |i, _| {
                said(
                    words::same_class(i.rank, &i.word, i.rank, &i.other),
                    |same| [usize::from(same)],
                )
            },
        )
    },
    Operation {
        unit: Unit::LetterOfBoth,
        ..operation(
            "same_class:64",
            |i, _| call!(luchtrav_same_class, i.rank, [i.word], 64, [i.other]),
            |i, _| {
                said(
                    words::same_class(i.rank, &i.word, 64, &i.other),
                    |same| [usize::from(same)],
                )
            },
        )
    },
    Operation {
        unit: Unit::LetterOfBoth,
        ..operation(
            "compare_weights",
            |i, _| {
                call!(
                    luchtrav_compare_weights,
                    i.rank,
                    [i.word],
                    i.rank,
                    [i.other]
                )
            },
            |i, _| count(words::compare_weights(i.rank, &i.word, i.rank, &i.other)),
        )
    },
];
