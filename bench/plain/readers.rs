//! The readers of W, T and P lines, and the converter of a T line and the N line beside it. A line is read into local memory,
//! judged, and only then copied to the caller.

use super::checks::{
    check_length, check_limits, check_pair, check_room, check_tableau, check_word, refuse_if,
    Answer, Refusal,
};
use super::words::letter_counts;
use super::writers::lay_pair_line;

/// A line, read from the left: its bytes, and the place of the next.
pub struct Reader<'a> {
    pub text: &'a [u8],
    pub at: usize,
}

impl Reader<'_> {
    /// The refusal 14 at the next byte.
    fn broken<T>(&self) -> Answer<T> {
        Err(Refusal {
            number: 14,
            place: self.at,
        })
    }

    /// One given byte.
    pub fn byte(&mut self, byte: u8) -> Answer<()> {
        if self.text.get(self.at) != Some(&byte) {
            return self.broken();
        }
        self.at += 1;
        Ok(())
    }

    /// The digit that stands next, if one does.
    fn digit(&self) -> Option<u16> {
        let byte = self.text.get(self.at)?;
        byte.is_ascii_digit().then(|| u16::from(byte - b'0'))
    }

    /// A comma and a number: one to four digits, and after a leading 0 nothing more.
    pub fn field(&mut self) -> Answer<u16> {
        self.byte(b',')?;
        let Some(mut value) = self.digit() else {
            return self.broken();
        };
        self.at += 1;
        if value == 0 {
            return Ok(0);
        }
        for _ in 0..3 {
            let Some(digit) = self.digit() else {
                break;
            };
            value = value * 10 + digit;
            self.at += 1;
        }
        Ok(value)
    }

    /// A comma and the letter of a step, as a mark.
    pub fn step(&mut self) -> Answer<u8> {
        self.byte(b',')?;
        let mark = match self.text.get(self.at) {
            Some(b'r') => 0,
            Some(b'd') => 1,
            _ => return self.broken(),
        };
        self.at += 1;
        Ok(mark)
    }

    /// So many cells of a ribbon: letters, and the step before each but the first.
    fn cells(&mut self, count: usize, letters: &mut [u8], marks: &mut [u8]) -> Answer<()> {
        for i in 0..count {
            let mark = if i == 0 { 0 } else { self.step()? };
            keep(letters, i, narrow(self.field()?));
            keep(marks, i, mark);
        }
        Ok(())
    }

    /// So many entries.
    fn entries(&mut self, count: usize, entries: &mut [u16]) -> Answer<()> {
        for i in 0..count {
            keep(entries, i, self.field()?);
        }
        Ok(())
    }

    /// Whether the line feed stands next.
    pub fn at_feed(&self) -> bool {
        self.text.get(self.at) == Some(&b'\n')
    }

    /// The line feed, and nothing after it.
    pub fn end(&mut self) -> Answer<()> {
        self.byte(b'\n')?;
        if self.at < self.text.len() {
            return self.broken();
        }
        Ok(())
    }
}

/// A number as a letter: one that no byte holds becomes 0, which is no letter either.
fn narrow(number: u16) -> u8 {
    u8::try_from(number).unwrap_or(0)
}

/// Keeps a value where there is room for it.
fn keep<T>(values: &mut [T], place: usize, value: T) {
    if let Some(kept) = values.get_mut(place) {
        *kept = value;
    }
}

pub fn read_word_line(text: &[u8], letters: &mut [u8]) -> Answer<(usize, usize)> {
    let mut line = Reader { text, at: 0 };
    let mut word = [0; 1024];
    line.byte(b'W')?;
    let rank = usize::from(line.field()?);
    let count = usize::from(line.field()?);
    for i in 0..count {
        keep(&mut word, i, narrow(line.field()?));
    }
    line.end()?;
    check_limits(rank, count)?;
    let word = &word[..count];
    check_word(rank, word)?;
    check_room(count, letters.len())?;
    letters[..count].copy_from_slice(word);
    Ok((rank, count))
}

/// The tableau of a whole T line, judged, into memory for 1,024 cells; rank and how many it has.
pub fn tableau_in(
    text: &[u8],
    cells: &mut [u8; 1024],
    steps: &mut [u8; 1024],
) -> Answer<(usize, usize)> {
    let mut line = Reader { text, at: 0 };
    line.byte(b'T')?;
    let rank = usize::from(line.field()?);
    let count = usize::from(line.field()?);
    line.cells(count, cells, steps)?;
    line.end()?;
    check_limits(rank, count)?;
    check_tableau(rank, &cells[..count], &steps[..count])?;
    Ok((rank, count))
}

pub fn read_tableau_line(
    text: &[u8],
    letters: &mut [u8],
    marks: &mut [u8],
    counts: &mut [u16; 64],
) -> Answer<(usize, usize)> {
    let mut cells = [0; 1024];
    let mut steps = [0; 1024];
    let (rank, count) = tableau_in(text, &mut cells, &mut steps)?;
    let cells = &cells[..count];
    let steps = &steps[..count];
    check_room(count, letters.len())?;
    check_room(count, marks.len())?;
    letters[..count].copy_from_slice(cells);
    marks[..count].copy_from_slice(steps);
    *counts = letter_counts(cells);
    Ok((rank, count))
}

pub fn read_pair_line(
    text: &[u8],
    letters: &mut [u8],
    marks: &mut [u8],
    entries: &mut [u16],
    counts: &mut [u16; 64],
) -> Answer<(usize, usize)> {
    let mut line = Reader { text, at: 0 };
    let mut cells = [0; 1024];
    let mut steps = [0; 1024];
    let mut ribbon = [0; 1024];
    line.byte(b'P')?;
    let rank = usize::from(line.field()?);
    let count = usize::from(line.field()?);
    line.cells(count, &mut cells, &mut steps)?;
    line.entries(count, &mut ribbon)?;
    line.end()?;
    check_limits(rank, count)?;
    let cells = &cells[..count];
    let steps = &steps[..count];
    let ribbon = &ribbon[..count];
    check_pair(rank, cells, steps, ribbon)?;
    check_room(count, letters.len())?;
    check_room(count, marks.len())?;
    check_room(count, entries.len())?;
    letters[..count].copy_from_slice(cells);
    marks[..count].copy_from_slice(steps);
    entries[..count].copy_from_slice(ribbon);
    *counts = letter_counts(cells);
    Ok((rank, count))
}

/// The entries of an N line, into memory for 1,024; how many it has.
fn recording_in(text: &[u8], entries: &mut [u16]) -> Answer<usize> {
    let mut line = Reader { text, at: 0 };
    line.byte(b'N')?;
    let count = usize::from(line.field()?);
    line.entries(count, entries)?;
    line.end()?;
    Ok(count)
}

pub fn convert_lines(tableau: &[u8], recording: &[u8], out: &mut [u8]) -> Answer<usize> {
    let mut line = Reader {
        text: tableau,
        at: 0,
    };
    let mut cells = [0; 1024];
    let mut steps = [0; 1024];
    let mut ribbon = [0; 1024];
    line.byte(b'T')?;
    let rank = usize::from(line.field()?);
    let count = usize::from(line.field()?);
    line.cells(count, &mut cells, &mut steps)?;
    line.end()?;
    let entries = recording_in(recording, &mut ribbon).map_err(|broken| Refusal {
        number: 14,
        place: tableau.len() + broken.place,
    })?;
    check_limits(rank, count)?;
    check_length(entries)?;
    refuse_if(entries != count, 3, 0)?;
    let cells = &cells[..count];
    let steps = &steps[..count];
    let ribbon = &ribbon[..count];
    check_pair(rank, cells, steps, ribbon)?;
    lay_pair_line(rank, cells, steps, ribbon, out)
}
