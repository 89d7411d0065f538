//! The checks on a recording ribbon, 7 and 8. As in the kernel, each makes one pass over all places that leaves at none,
//! and looks for the first fault only where that pass saw one.

use super::checks::{refuse_at, refuse_if, Answer};

/// Whether each entry is 1 to as many as there are, and none leaves the remainder by 1,024 of another.
fn apart(entries: &[u16]) -> bool {
    let mut noted = [false; 1024];
    !entries.iter().fold(false, |wrong, &entry| {
        let number = usize::from(entry);
        let note = &mut noted[number % 1024];
        let here = (number.wrapping_sub(1) >= entries.len()) | *note;
        *note = true;
        wrong | here
    })
}

/// 7, with a table of bits, one for each entry, where the first fault is looked for.
pub fn check_entries(entries: &[u16]) -> Answer<()> {
    if apart(entries) {
        return Ok(());
    }
    let mut seen = [0u64; 16];
    for (place, &entry) in entries.iter().enumerate() {
        let number = usize::from(entry);
        refuse_if(number < 1 || number > entries.len(), 7, place)?;
        let bit = 1 << ((number - 1) % 64);
        let part = &mut seen[(number - 1) / 64];
        refuse_if(*part & bit != 0, 7, place)?;
        *part |= bit;
    }
    Ok(())
}

/// 8, of as many marks as entries.
pub fn check_steps(entries: &[u16], marks: &[u8]) -> Answer<()> {
    let steps = || {
        let entries = entries.iter().zip(entries.iter().skip(1));
        entries.zip(marks.iter().skip(1))
    };
    let broken = |((before, here), &mark): ((&u16, &u16), &u8)| {
        (mark == 0) & (here < before) | (mark != 0) & (before < here)
    };
    if !steps().fold(false, |seen, step| seen | broken(step)) {
        return Ok(());
    }
    refuse_at(steps().position(broken).map(|p| p + 1), 8)
}
