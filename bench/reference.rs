//! The run in plain Rust, written for speed: what the proved run is measured against.
//!
//! Integers by codes, weighted degree with weights 1, plain terms in a lent memory whose list ends at its end.

use std::cmp::Ordering;

#[derive(Clone, Copy)]
pub struct Term {
    pub row: [u8; 32],
    pub code: u64,
}

pub const BLANK: Term = Term { row: [0; 32], code: 0 };

fn value(code: u64) -> i64 {
    if code & 1 == 0 { (code / 2) as i64 } else { -1 - (code / 2) as i64 }
}

fn code(value: i64) -> Option<u64> {
    match value {
        0..=2147483647 => Some(2 * value as u64),
        -2147483647..0 => Some(2 * (-1 - value) as u64 + 1),
        _ => None,
    }
}

fn length(row: &[u8; 32]) -> usize {
    row.iter().position(|&x| x == 0).unwrap_or(32)
}

/// The eight letter counts in one number, x1 in the highest byte.
#[inline]
fn image(row: &[u8; 32]) -> u64 {
    let mut counts = 0;
    for &x in row {
        if x == 0 {
            break;
        }
        counts += 1u64 << (64 - 8 * x as u32);
    }
    counts
}

#[inline]
fn degree(image: u64) -> u64 {
    image.wrapping_mul(0x0101_0101_0101_0101) >> 56
}

/// In one pass: byte y − 1 counts the letters above y so far.
#[inline]
fn inversions(row: &[u8; 32]) -> u64 {
    let (mut above, mut all) = (0u64, 0);
    for &x in row {
        if x == 0 {
            break;
        }
        let shift = 8 * (x as u32 - 1);
        all += (above >> shift) & 0xff;
        above += 0x0101_0101_0101_0101 & ((1u64 << shift) - 1);
    }
    all
}

struct Measured {
    term: Term,
    image: u64,
    degree: u64,
    inversions: u64,
}

impl Measured {
    fn new(term: Term) -> Self {
        let image = image(&term.row);
        Measured { image, degree: degree(image), inversions: inversions(&term.row), term }
    }

    #[inline]
    fn compare(&self, other: &Term) -> Ordering {
        let counts = image(&other.row);
        if counts != self.image {
            return self.degree.cmp(&degree(counts)).then(self.image.cmp(&counts));
        }
        if other.row == self.term.row {
            return Ordering::Equal;
        }
        self.inversions.cmp(&inversions(&other.row)).then_with(|| self.term.row.cmp(&other.row))
    }
}

/// The relation x_j x_i = factor x_i x_j + tail.
#[derive(Clone, Default)]
pub struct Relation {
    pub factor: u64,
    pub tail: Vec<(Vec<u8>, u64)>,
}

pub struct Work<'a> {
    memory: &'a mut [Term],
    start: usize,
}

impl Work<'_> {
    fn merge(&mut self, place: usize, term: Term) -> Result<(), u8> {
        let sum = code(value(self.memory[place].code) + value(term.code)).ok_or(10)?;
        if sum == 0 {
            self.memory.copy_within(self.start..place, self.start + 1);
            self.start += 1;
        } else {
            self.memory[place].code = sum;
        }
        Ok(())
    }

    fn insert(&mut self, term: Term) -> Result<(), u8> {
        if term.code == 0 {
            return Ok(());
        }
        let new = Measured::new(term);
        let end = self.memory.len();
        let (mut low, mut high, mut stride) = (self.start, self.start, 1);
        while high < end {
            match new.compare(&self.memory[high]) {
                Ordering::Less => {
                    low = high + 1;
                    high = end.min(low + stride);
                    stride *= 2;
                }
                Ordering::Equal => return self.merge(high, term),
                Ordering::Greater => break,
            }
        }
        while low < high {
            let middle = (low + high) / 2;
            match new.compare(&self.memory[middle]) {
                Ordering::Less => low = middle + 1,
                Ordering::Equal => return self.merge(middle, term),
                Ordering::Greater => high = middle,
            }
        }
        if self.start == 0 {
            return Err(23);
        }
        self.memory.copy_within(self.start..low, self.start - 1);
        self.start -= 1;
        self.memory[low - 1] = term;
        Ok(())
    }
}

/// Normalises one word with coefficient 1: how many steps there were, and how many terms or which refusal.
pub fn normalise(relations: &[Vec<Relation>], word: &[u8], work: &mut [Term], out: &mut [Term]) -> (u64, Result<usize, u8>) {
    work.fill(BLANK);
    out.fill(BLANK);
    let mut steps = 0;
    let answer = run(relations, word, work, out, &mut steps);
    if answer.is_err() {
        work.fill(BLANK);
        out.fill(BLANK);
    }
    (steps, answer)
}

fn run(relations: &[Vec<Relation>], word: &[u8], work: &mut [Term], out: &mut [Term], steps: &mut u64) -> Result<usize, u8> {
    let start = work.len();
    let mut work = Work { memory: work, start };
    let mut row = [0; 32];
    row[..word.len()].copy_from_slice(word);
    work.insert(Term { row, code: 2 })?;
    let mut count = 0;
    while work.start < work.memory.len() {
        if *steps == 1_000_000 {
            return Err(25);
        }
        *steps += 1;
        let term = std::mem::replace(&mut work.memory[work.start], BLANK);
        work.start += 1;
        let n = length(&term.row);
        let Some(k) = (1..n).find(|&k| term.row[k] < term.row[k - 1]) else {
            *out.get_mut(count).ok_or(24)? = term;
            count += 1;
            continue;
        };
        let (j, i) = (term.row[k - 1], term.row[k]);
        let relation = &relations[j as usize - 1][i as usize - 1];
        let mut row = term.row;
        row.swap(k - 1, k);
        work.insert(Term { row, code: code(value(term.code) * value(relation.factor)).ok_or(10)? })?;
        for (word, e) in &relation.tail {
            let m = word.len();
            if n - 2 + m > 32 {
                return Err(11);
            }
            let mut row = [0; 32];
            row[..k - 1].copy_from_slice(&term.row[..k - 1]);
            row[k - 1..k - 1 + m].copy_from_slice(word);
            row[k - 1 + m..n - 2 + m].copy_from_slice(&term.row[k + 1..n]);
            work.insert(Term { row, code: code(value(term.code) * value(*e)).ok_or(10)? })?;
        }
    }
    Ok(count)
}
