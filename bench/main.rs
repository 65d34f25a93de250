//! Compares the cost of a step of the proved run with that of the same run in plain Rust, on the same words, in one run.

mod reference;

use reference::{normalise, Relation, BLANK};
use std::time::Instant;

unsafe extern "C" {
    /// Normalises the word with coefficient 1 so many times; 0 Weyl algebra, 1 sl2, 2 commuting plane, 3 the Weyl algebra of four pairs.
    /// The steps of one run times 10,000 and the number of terms, or 9,999 where it was refused.
    fn normalise_many(algebra: u32, word: *const u8, length: usize, times: u64) -> u64;
}

const ONE: u64 = 2;

/// n generators that commute.
fn commuting(n: usize) -> Vec<Vec<Relation>> {
    vec![vec![Relation { factor: ONE, tail: vec![] }; n]; n]
}

fn algebra(which: u32) -> Vec<Vec<Relation>> {
    let mut relations = commuting(8);
    match which {
        0 => relations[1][0].tail = vec![(vec![], ONE)],
        1 => {
            relations[1][0].tail = vec![(vec![3], 1)];
            relations[2][0].tail = vec![(vec![1], 4)];
            relations[2][1].tail = vec![(vec![2], 3)];
        }
        3 => (0..4).for_each(|i| relations[4 + i][i].tail = vec![(vec![], ONE)]),
        _ => {}
    }
    relations
}

fn word(parts: &[(u8, usize)]) -> Vec<u8> {
    parts.iter().flat_map(|&(x, n)| vec![x; n]).collect()
}

/// Nanoseconds a step, the best of several rounds, and what was answered.
fn best(mut run: impl FnMut() -> (u64, u64)) -> (f64, u64) {
    let mut result = (f64::INFINITY, 0);
    for _ in 0..7 {
        let start = Instant::now();
        let (steps, answer) = run();
        result = (result.0.min(start.elapsed().as_nanos() as f64 / steps as f64), answer);
    }
    result
}

fn compare(name: &str, which: u32, parts: &[(u8, usize)], times: u64) {
    let word = word(parts);
    let relations = algebra(which);
    let mut work = vec![BLANK; 512];
    let mut out = vec![BLANK; 512];
    let (plain, expected) = best(|| {
        let mut last = (0, Err(0));
        for _ in 0..times {
            last = normalise(&relations, &word, &mut work, &mut out);
        }
        let (steps, answer) = last;
        (steps * times, steps * 10_000 + answer.map_or(9_999, |count| count as u64))
    });
    let (proved, answer) = best(|| {
        let answer = unsafe { normalise_many(which, word.as_ptr(), word.len(), times) };
        (answer / 10_000 * times, answer)
    });
    assert_eq!(answer, expected, "{name}: steps · 10,000 + terms");
    println!("{name:28} {:7} steps {:4} terms   plain {plain:7.1} ns   proved {proved:7.1} ns   ratio {:.2}", answer / 10_000, answer % 10_000, proved / plain);
}

fn main() {
    compare("Weyl x2^8 x1^8", 0, &[(2, 8), (1, 8)], 200);
    compare("Weyl x2^16 x1^16", 0, &[(2, 16), (1, 16)], 20);
    compare("sl2 f^5 e^5", 1, &[(2, 5), (1, 5)], 200);
    compare("sl2 h^4 f^4 e^4", 1, &[(3, 4), (2, 4), (1, 4)], 50);
    compare("plane x2^16 x1^16", 2, &[(2, 16), (1, 16)], 100);
    compare("four Weyl pairs, x^3 each", 3, &[(5, 3), (6, 3), (7, 3), (8, 3), (1, 3), (2, 3), (3, 3), (4, 3)], 2);
}
