//! Requests to callgrind, which counts the instructions of this program. Without callgrind they do nothing.

use std::arch::asm;
use std::ffi::CStr;

const ZERO_STATS: usize = 0x4354_0001;
const DUMP_STATS_AT: usize = 0x4354_0003;

/// Valgrind takes four rotations that together change nothing, and an exchange of a register with itself, for a request.
fn request(number: usize, argument: usize) {
    let words = [number, argument, 0, 0, 0, 0];
    // SAFETY: the instructions change rdx and flags alone; valgrind reads the six words and the text that one points to.
    unsafe {
        asm!(
            "rol rdi, 3",
            "rol rdi, 13",
            "rol rdi, 61",
            "rol rdi, 51",
            "xchg rbx, rbx",
            in("rax") words.as_ptr(),
            inout("rdx") 0usize => _,
        );
    }
}

/// Starts to count anew.
pub fn zero() {
    request(ZERO_STATS, 0);
}

/// Writes down what was counted since, under a name.
pub fn dump(name: &CStr) {
    request(DUMP_STATS_AT, name.as_ptr() as usize);
}
