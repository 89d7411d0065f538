//! C lines: written, read, and turned into T lines and back.

use super::{count, operation, said, Operation, Unit};
use crate::kernel::*;
use crate::plain::runs;

pub const OPERATIONS: [Operation; 5] = [
    operation(
        "run_line_of_word",
        |i, m| call!(luchtrav_run_line_of_word, i.rank, [i.word], [mut m.text]),
        |i, m| count(runs::run_line_of_word(i.rank, &i.word, &mut m.text)),
    ),
    operation(
        "write_run_line",
        |i, m| call!(luchtrav_write_run_line, i.rank, [i.letters], [i.marks], [mut m.text]),
        |i, m| {
            count(runs::write_run_line(
                i.rank,
                &i.letters,
                &i.marks,
                &mut m.text,
            ))
        },
    ),
    Operation {
        unit: Unit::Item,
        ..operation(
            "read_run_line",
            |i, m| {
                call!(
                    luchtrav_read_run_line,
                    [i.run_line],
                    [mut m.letters],
                    [mut m.marks],
                    m.counts.as_mut_ptr()
                )
            },
            |i, m| {
                said(
                    runs::read_run_line(&i.run_line, &mut m.letters, &mut m.marks, &mut m.counts),
                    |(rank, count)| [rank, count],
                )
            },
        )
    },
    operation(
        "tableau_to_runs",
        |i, m| call!(luchtrav_tableau_to_runs, [i.tableau_line], [mut m.text]),
        |i, m| count(runs::tableau_to_runs(&i.tableau_line, &mut m.text)),
    ),
    operation(
        "runs_to_tableau",
        |i, m| call!(luchtrav_runs_to_tableau, [i.run_line], [mut m.text]),
        |i, m| count(runs::runs_to_tableau(&i.run_line, &mut m.text)),
    ),
];
