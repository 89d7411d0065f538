//! C lines: written of tableaux and words, read, and turned into T lines and back. The items of a line may be any number; the
//! first fault of each kind is kept while they are read, and their counts and steps by letter, of which there are 64.

use super::checks::{
    check_limits, check_room, check_tableau, check_word, refuse_at, refuse_if, Answer,
};
use super::readers::{tableau_in, Reader};
use super::words::lay_pair;
use super::writers::{field_size, lay_tableau_line, write_field, write_head};

/// The runs of a tableau's cells: letter, count and the step into it.
fn runs<'a>(letters: &'a [u8], marks: &'a [u8]) -> impl Iterator<Item = (u8, usize, u8)> + 'a {
    let mut at = 0;
    letters.chunk_by(|a, b| a == b).map(move |run| {
        let step = marks[at];
        at += run.len();
        (run[0], run.len(), step)
    })
}

/// The C line of a valid tableau.
fn lay_run_line(rank: usize, letters: &[u8], marks: &[u8], out: &mut [u8]) -> Answer<usize> {
    let items: usize = runs(letters, marks)
        .map(|(letter, times, _)| 2 + field_size(usize::from(letter)) + field_size(times))
        .sum();
    let need = 2 + field_size(rank) + field_size(letters.len()) + items.saturating_sub(2);
    check_room(need, out.len())?;
    let mut at = write_head(b'C', rank, letters.len(), out);
    for (i, (letter, times, step)) in runs(letters, marks).enumerate() {
        if i > 0 {
            out[at] = b',';
            out[at + 1] = if step == 0 { b'r' } else { b'd' };
            at += 2;
        }
        at = write_field(usize::from(letter), out, at);
        at = write_field(times, out, at);
    }
    out[at] = b'\n';
    Ok(need)
}

/// The items of a C line: their counts and steps by letter, as far as they are letters, the first items that 4 and 19 refuse,
/// and the sum of the counts.
struct Items {
    times: [u16; 64],
    steps: [u8; 64],
    outside: Option<usize>,
    falling: Option<usize>,
    sum: usize,
}

impl Items {
    fn read(line: &mut Reader, rank: usize) -> Answer<Items> {
        let mut items = Items {
            times: [0; 64],
            steps: [0; 64],
            outside: None,
            falling: None,
            sum: 0,
        };
        let mut before = 0;
        let mut place = 0;
        while !line.at_feed() {
            let step = if place == 0 { 0 } else { line.step()? };
            let letter = usize::from(line.field()?);
            let times = line.field()?;
            if items.outside.is_none() && !(1..=rank).contains(&letter) {
                items.outside = Some(place);
            }
            if items.falling.is_none() && (letter <= before || times == 0) {
                items.falling = Some(place);
            }
            if (1..=64).contains(&letter) {
                items.times[letter - 1] = times;
                items.steps[letter - 1] = step;
            }
            items.sum += usize::from(times);
            before = letter;
            place += 1;
        }
        Ok(items)
    }

    /// 4, 19 and 20.
    fn check(&self, count: usize) -> Answer<()> {
        refuse_at(self.outside, 4)?;
        refuse_at(self.falling, 19)?;
        refuse_if(self.sum != count, 20, 0)
    }

    /// The cells, of which there are as many as places.
    fn lay(&self, letters: &mut [u8], marks: &mut [u8]) {
        let mut at = 0;
        for (letter, (&times, &step)) in (1..).zip(self.times.iter().zip(&self.steps)) {
            if times == 0 {
                continue;
            }
            let end = at + usize::from(times);
            letters[at..end].fill(letter);
            marks[at..end].fill(0);
            marks[at] = step;
            at = end;
        }
    }
}

/// Rank, number of cells and items of a whole C line, judged.
fn runs_in(text: &[u8]) -> Answer<(usize, usize, Items)> {
    let mut line = Reader { text, at: 0 };
    line.byte(b'C')?;
    let rank = usize::from(line.field()?);
    let count = usize::from(line.field()?);
    let items = Items::read(&mut line, rank)?;
    line.end()?;
    check_limits(rank, count)?;
    items.check(count)?;
    Ok((rank, count, items))
}

pub fn run_line_of_word(rank: usize, word: &[u8], out: &mut [u8]) -> Answer<usize> {
    check_word(rank, word)?;
    let mut letters = [0; 1024];
    let mut marks = [0; 1024];
    let mut entries = [0; 1024];
    let letters = &mut letters[..word.len()];
    let marks = &mut marks[..word.len()];
    lay_pair(rank, word, letters, marks, &mut entries);
    lay_run_line(rank, letters, marks, out)
}

pub fn write_run_line(rank: usize, letters: &[u8], marks: &[u8], out: &mut [u8]) -> Answer<usize> {
    check_tableau(rank, letters, marks)?;
    lay_run_line(rank, letters, marks, out)
}

pub fn read_run_line(
    text: &[u8],
    letters: &mut [u8],
    marks: &mut [u8],
    counts: &mut [u16; 64],
) -> Answer<(usize, usize)> {
    let (rank, count, items) = runs_in(text)?;
    check_room(count, letters.len())?;
    check_room(count, marks.len())?;
    items.lay(letters, marks);
    *counts = items.times;
    Ok((rank, count))
}

pub fn tableau_to_runs(text: &[u8], out: &mut [u8]) -> Answer<usize> {
    let mut letters = [0; 1024];
    let mut marks = [0; 1024];
    let (rank, count) = tableau_in(text, &mut letters, &mut marks)?;
    lay_run_line(rank, &letters[..count], &marks[..count], out)
}

pub fn runs_to_tableau(text: &[u8], out: &mut [u8]) -> Answer<usize> {
    let (rank, count, items) = runs_in(text)?;
    let mut letters = [0; 1024];
    let mut marks = [0; 1024];
    let letters = &mut letters[..count];
    let marks = &mut marks[..count];
    items.lay(letters, marks);
    lay_tableau_line(rank, letters, marks, out)
}
