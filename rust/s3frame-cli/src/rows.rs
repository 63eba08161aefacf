//! What the picture of read frames shows: rows of slots, never more than some hundred; a cell shows the worst answer in it.
use crate::tally::Answer;
use s3frame::SLOTS;

/// The most rows that are kept; it is even, so that rows join two by two.
const MOST: usize = 200;

/// The cells of a row, slot 1 first.
pub type Row = [Answer; SLOTS];

/// Rows that stand for one frame each or, where frames are many, for several.
pub struct Rows {
    rows: Vec<Row>,
    each: u64,
    frames: u64,
}

impl Rows {
    pub fn new() -> Rows {
        Rows { rows: Vec::with_capacity(MOST), each: 1, frames: 0 }
    }

    /// Adds a frame. Where no row is left for it, rows stand for twice as many frames from then on.
    pub fn add(&mut self, frame: &Row) {
        if self.frames % self.each == 0 && self.rows.len() == MOST {
            self.join();
        }
        match self.rows.last_mut() {
            Some(row) if self.frames % self.each != 0 => worsen(row, frame),
            _ => self.rows.push(*frame),
        }
        self.frames += 1;
    }

    fn join(&mut self) {
        for row in 0..MOST / 2 {
            let mut joined = self.rows[2 * row];
            worsen(&mut joined, &self.rows[2 * row + 1]);
            self.rows[row] = joined;
        }
        self.rows.truncate(MOST / 2);
        self.each *= 2;
    }

    /// How many frames were added.
    pub fn frames(&self) -> u64 {
        self.frames
    }

    /// How many frames a row stands for; the last may stand for fewer.
    pub fn each(&self) -> u64 {
        self.each
    }

    /// Each row with the numbers of its first and last frame, from 1.
    pub fn iter(&self) -> impl Iterator<Item = (u64, u64, &Row)> {
        let firsts = (0..).map(|row| row * self.each);
        firsts.zip(&self.rows).map(|(before, row)| (before + 1, self.frames.min(before + self.each), row))
    }
}

/// Leaves the worse of two answers in each cell.
fn worsen(row: &mut Row, other: &Row) {
    row.iter_mut().zip(other).for_each(|(cell, other)| *cell = (*cell).max(*other));
}

#[cfg(test)]
mod tests {
    use super::*;

    /// Rows of so many frames, all accepted but for slot 1 of some.
    fn rows(frames: u64, wrong: &[(u64, Answer)]) -> Rows {
        let mut rows = Rows::new();
        for frame in 1..=frames {
            let mut row = [Answer::Accepted; SLOTS];
            wrong.iter().filter(|(number, _)| *number == frame).for_each(|(_, answer)| row[0] = *answer);
            rows.add(&row);
        }
        rows
    }

    /// First and last frame of each row, and its first cell.
    fn ends(rows: &Rows) -> Vec<(u64, u64, Answer)> {
        rows.iter().map(|(first, last, row)| (first, last, row[0])).collect()
    }

    #[test]
    fn a_row_for_each_frame_while_they_last() {
        let rows = rows(200, &[(200, Answer::Bch)]);
        assert_eq!((rows.each(), rows.frames()), (1, 200));
        assert_eq!(ends(&rows)[198..], [(199, 199, Answer::Accepted), (200, 200, Answer::Bch)]);
    }

    #[test]
    fn rows_join_when_they_run_out() {
        let other = Answer::OtherStuff;
        let rows = rows(201, &[(1, other), (2, Answer::Parity), (3, other), (4, Answer::Bch), (6, other)]);
        let ends = ends(&rows);
        assert_eq!((rows.each(), ends.len()), (2, 101));
        assert_eq!(ends[..3], [(1, 2, Answer::Parity), (3, 4, Answer::Bch), (5, 6, other)]);
        assert_eq!([ends[3], ends[100]], [(7, 8, Answer::Accepted), (201, 201, Answer::Accepted)]);
    }

    #[test]
    fn rows_cover_all_frames_once() {
        for frames in [1, 2, 399, 400, 401, 1_599, 1_601, 12_345] {
            let rows = rows(frames, &[(frames, Answer::Parity)]);
            let ends = ends(&rows);
            assert!(ends.len() <= MOST && ends.len() as u64 == (frames + rows.each() - 1) / rows.each());
            assert!(ends.windows(2).all(|two| two[0].1 + 1 == two[1].0));
            assert_eq!((ends[0].0, ends[ends.len() - 1].1), (1, frames));
            let dark = ends.iter().filter(|(_, _, answer)| *answer == Answer::Parity).count();
            assert_eq!((dark, ends[ends.len() - 1].2), (1, Answer::Parity));
        }
    }
}
