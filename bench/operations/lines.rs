//! Lines: written, read, converted, and the answer of the program.

use super::{count, operation, said, Operation, Unit};
use crate::kernel::*;
use crate::plain::{lines, readers, writers};

pub const OPERATIONS: [Operation; 11] = [
    operation(
        "tableau_line_of_word",
        |i, m| call!(luchtrav_tableau_line_of_word, i.rank, [i.word], [mut m.text]),
        |i, m| count(lines::tableau_line_of_word(i.rank, &i.word, &mut m.text)),
    ),
    operation(
        "write_word_line",
        |i, m| call!(luchtrav_write_word_line, i.rank, [i.word], [mut m.text]),
        |i, m| count(writers::write_word_line(i.rank, &i.word, &mut m.text)),
    ),
    operation(
        "write_tableau_line",
        |i, m| call!(luchtrav_write_tableau_line, i.rank, [i.letters], [i.marks], [mut m.text]),
        |i, m| {
            count(writers::write_tableau_line(
                i.rank,
                &i.letters,
                &i.marks,
                &mut m.text,
            ))
        },
    ),
    operation(
        "write_pair_line",
        |i, m| {
            call!(
                luchtrav_write_pair_line,
                i.rank,
                [i.letters],
                [i.marks],
                [i.entries],
                [mut m.text]
            )
        },
        |i, m| {
            count(writers::write_pair_line(
                i.rank,
                &i.letters,
                &i.marks,
                &i.entries,
                &mut m.text,
            ))
        },
    ),
    operation(
        "write_junction_line",
        |i, m| call!(luchtrav_write_junction_line, i.rank, [i.word], [mut m.text]),
        |i, m| count(writers::write_junction_line(i.rank, &i.word, &mut m.text)),
    ),
    Operation {
        unit: Unit::Call,
        ..operation(
            "write_refusal_line",
            |i, m| call!(luchtrav_write_refusal_line, 4, i.count - 1, [mut m.text]),
            |i, m| count(writers::write_refusal_line(4, i.count - 1, &mut m.text)),
        )
    },
    operation(
        "read_word_line",
        |i, m| call!(luchtrav_read_word_line, [i.word_line], [mut m.letters]),
        |i, m| {
            said(
                readers::read_word_line(&i.word_line, &mut m.letters),
                |(rank, count)| [rank, count],
            )
        },
    ),
    operation(
        "read_tableau_line",
        |i, m| {
            call!(
                luchtrav_read_tableau_line,
                [i.tableau_line],
                [mut m.letters],
                [mut m.marks],
                m.counts.as_mut_ptr()
            )
        },
        |i, m| {
            said(
                readers::read_tableau_line(
                    &i.tableau_line,
                    &mut m.letters,
                    &mut m.marks,
                    &mut m.counts,
                ),
                |(rank, count)| [rank, count],
            )
        },
    ),
    operation(
        "read_pair_line",
        |i, m| {
            call!(
                luchtrav_read_pair_line,
                [i.pair_line],
                [mut m.letters],
                [mut m.marks],
                [mut m.entries],
                m.counts.as_mut_ptr()
            )
        },
        |i, m| {
            said(
                readers::read_pair_line(
                    &i.pair_line,
                    &mut m.letters,
                    &mut m.marks,
                    &mut m.entries,
                    &mut m.counts,
                ),
                |(rank, count)| [rank, count],
            )
        },
    ),
    operation(
        "convert_lines",
        |i, m| {
            call!(
                luchtrav_convert_lines,
                [i.tableau_line],
                [i.recording_line],
                [mut m.text]
            )
        },
        |i, m| {
            count(readers::convert_lines(
                &i.tableau_line,
                &i.recording_line,
                &mut m.text,
            ))
        },
    ),
    operation(
        "answer",
        |i, m| call!(luchtrav_answer, [i.word_line], [mut m.text]),
        |i, m| count(lines::answer(&i.word_line, &mut m.text)),
    ),
];
