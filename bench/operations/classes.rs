//! The words of a class by number, of at most 20 letters.

use super::{count, operation, value, Operation, Unit};
use crate::kernel::*;
use crate::plain::classes;

pub const OPERATIONS: [Operation; 3] = [
    Operation {
        unit: Unit::Call,
        ..operation(
            "class_size",
            |i, _| {
                call!(
                    luchtrav_class_size,
                    i.rank,
                    [i.letters],
                    [i.marks],
                    i.counts.as_ptr()
                )
            },
            |i, _| value(classes::class_size(i.rank, i.tableau())),
        )
    },
    Operation {
        unit: Unit::Call,
        ..operation(
            "class_word",
            |i, m| {
                call!(
                    luchtrav_class_word,
                    i.rank,
                    [i.letters],
                    [i.marks],
                    i.counts.as_ptr(),
                    i.number,
                    [mut m.letters]
                )
            },
            |i, m| {
                count(classes::class_word(
                    i.rank,
                    i.tableau(),
                    i.number,
                    &mut m.letters,
                ))
            },
        )
    },
    Operation {
        unit: Unit::Call,
        ..operation(
            "class_number",
            |i, _| call!(luchtrav_class_number, i.rank, [i.word]),
            |i, _| value(classes::class_number(i.rank, &i.word)),
        )
    },
];
