//! Time of one call of the kernel, for `bench/python_call.py` to set beside that of Python.

use crate::inputs::Input;
use crate::operations::Operation;
use std::hint::black_box;
use std::time::Instant;

/// Nanoseconds of one call: the best of 300 times 40 calls.
pub fn nanoseconds(operation: &Operation, input: &Input) -> u128 {
    let call = black_box(operation.kernel);
    let mut lent = (operation.lend)(input);
    let mut best = u128::MAX;
    for _ in 0..300 {
        let start = Instant::now();
        for _ in 0..40 {
            black_box(call(black_box(input), &mut lent));
        }
        best = best.min(start.elapsed().as_nanos() / 40);
    }
    best
}
