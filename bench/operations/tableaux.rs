//! Tableaux: column reading, moves, repeat counts, classes and weights, cells, products.

use super::{cell, changed, count, done, operation, said, Operation, Unit};
use crate::inputs::Lent;
use crate::kernel::*;
use crate::plain::checks::{check_counted_tableau, check_tableau};
use crate::plain::products::product;
use crate::plain::words::Side::{Lowering, Raising};
use crate::plain::{stored, tableaux};

pub const OPERATIONS: [Operation; 12] = [
    operation(
        "check_tableau",
        |i, _| call!(luchtrav_check_tableau, i.rank, [i.letters], [i.marks]),
        |i, _| done(check_tableau(i.rank, &i.letters, &i.marks)),
    ),
    operation(
        "check_counted_tableau",
        |i, _| {
            call!(
                luchtrav_check_counted_tableau,
                i.rank,
                [i.letters],
                [i.marks],
                i.counts.as_ptr()
            )
        },
        |i, _| done(check_counted_tableau(i.rank, i.tableau())),
    ),
    operation(
        "column_reading",
        |i, m| {
            call!(
                luchtrav_column_reading,
                i.rank,
                [i.letters],
                [i.marks],
                i.counts.as_ptr(),
                [mut m.letters]
            )
        },
        |i, m| {
            count(tableaux::column_reading(
                i.rank,
                i.tableau(),
                &mut m.letters,
            ))
        },
    ),
    Operation {
        lend: |i| Lent::holding(&i.raising),
        ..operation(
            "raise_tableau",
            |i, m| {
                call!(
                    luchtrav_raise_tableau,
                    i.rank,
                    i.rank - 1,
                    [mut m.letters[..i.count]],
                    [i.raising.marks],
                    m.counts.as_mut_ptr()
                )
            },
            |i, m| {
                changed(tableaux::move_tableau(
                    Raising,
                    i.rank,
                    i.rank - 1,
                    &mut m.letters[..i.count],
                    &i.raising.marks,
                    &mut m.counts,
                ))
            },
        )
    },
    Operation {
        lend: |i| Lent::holding(&i.lowering),
        ..operation(
            "lower_tableau",
            |i, m| {
                call!(
                    luchtrav_lower_tableau,
                    i.rank,
                    1,
                    [mut m.letters[..i.count]],
                    [i.lowering.marks],
                    m.counts.as_mut_ptr()
                )
            },
            |i, m| {
                changed(tableaux::move_tableau(
                    Lowering,
                    i.rank,
                    1,
                    &mut m.letters[..i.count],
                    &i.lowering.marks,
                    &mut m.counts,
                ))
            },
        )
    },
    operation(
        "raise_count_tableau",
        |i, _| {
            call!(
                luchtrav_raise_count_tableau,
                i.rank,
                i.rank - 1,
                [i.raising.letters],
                [i.raising.marks],
                i.raising.counts.as_ptr()
            )
        },
        |i, _| {
            count(tableaux::repeat_tableau(
                Raising,
                i.rank,
                i.rank - 1,
                i.raising.tableau(),
            ))
        },
    ),
    operation(
        "lower_count_tableau",
        |i, _| {
            call!(
                luchtrav_lower_count_tableau,
                i.rank,
                1,
                [i.lowering.letters],
                [i.lowering.marks],
                i.lowering.counts.as_ptr()
            )
        },
        |i, _| {
            count(tableaux::repeat_tableau(
                Lowering,
                i.rank,
                1,
                i.lowering.tableau(),
            ))
        },
    ),
    Operation {
        unit: Unit::LetterOfBoth,
        ..operation(
            "same_class_of_tableaux",
            |i, _| {
                call!(
                    luchtrav_same_class_of_tableaux,
                    i.rank,
                    [i.letters],
                    [i.marks],
                    i.counts.as_ptr(),
                    i.rank,
                    [i.letters],
                    [i.marks],
                    i.counts.as_ptr()
                )
            },
            |i, _| {
                said(
                    stored::same_class(i.rank, i.tableau(), i.rank, i.tableau()),
                    |same| [usize::from(same)],
                )
            },
        )
    },
    Operation {
        unit: Unit::LetterOfBoth,
        ..operation(
            "compare_weights_of_tableaux",
            |i, _| {
                call!(
                    luchtrav_compare_weights_of_tableaux,
                    i.rank,
                    [i.letters],
                    [i.marks],
                    i.counts.as_ptr(),
                    i.rank,
                    [i.letters],
                    [i.marks],
                    i.counts.as_ptr()
                )
            },
            |i, _| {
                count(stored::compare_weights(
                    i.rank,
                    i.tableau(),
                    i.rank,
                    i.tableau(),
                ))
            },
        )
    },
    operation(
        "look",
        |i, _| call!(luchtrav_look, i.rank, [i.letters], [i.marks], i.count - 1),
        |i, _| cell(tableaux::look(i.rank, &i.letters, &i.marks, i.count - 1)),
    ),
    operation(
        "cell_at",
        |i, _| call!(luchtrav_cell_at, [i.letters], [i.marks], i.count - 1),
        |i, _| cell(Ok(tableaux::cell_at(&i.letters, &i.marks, i.count - 1))),
    ),
    operation(
        "product",
        |i, m| {
            call!(
                luchtrav_product,
                i.rank,
                [i.front.letters],
                [i.front.marks],
                i.front.counts.as_ptr(),
                [i.back.letters],
                [i.back.marks],
                i.back.counts.as_ptr(),
                [mut m.letters],
                [mut m.marks],
                m.counts.as_mut_ptr()
            )
        },
        |i, m| {
            count(product(
                i.rank,
                i.front.tableau(),
                i.back.tableau(),
                &mut m.letters,
                &mut m.marks,
                &mut m.counts,
            ))
        },
    ),
];
