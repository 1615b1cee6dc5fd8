//! The same numbers and work as `crates/number_bench`, over `num-rational`'s `Ratio<i128>`.
//! `checked` prints the lines of the checked operations, `plain` those of `+` and `*`, which wrap.

use num_rational::Ratio;
use num_traits::{CheckedAdd, CheckedMul};
use std::hint::black_box;
use std::time::Instant;

const PAIRS: usize = 1024;
const RUNS: u32 = 25;

#[derive(Clone, Copy)]
enum Kind {
    Whole,
    Decimal,
    Middle,
    Long,
}

fn next(state: u64) -> u64 {
    let a = state ^ (state << 13);
    let b = a ^ (a >> 7);
    b ^ (b << 17)
}

fn number(kind: Kind, n: u64, d: u64) -> Ratio<i128> {
    let (size, under) = match kind {
        Kind::Whole => ((n % 1_000_000) as i128, 1),
        Kind::Decimal => ((n % 1_000_000_000) as i128, 1_000_000),
        Kind::Middle => ((n >> 14) as i128, (d >> 14) as i128 + 1),
        Kind::Long => ((n as i128) << 36, (d % 63) as i128 + 1),
    };
    Ratio::new(if n % 3 == 0 { -size } else { size }, under)
}

fn numbers(kind: Kind, seed: u64) -> Vec<Ratio<i128>> {
    let mut state = seed;
    (0..PAIRS)
        .map(|_| {
            let n = next(state);
            let d = next(n);
            state = d;
            number(kind, n, d)
        })
        .collect()
}

/// The least time of a few runs, in nanoseconds for one.
fn time(turns: u32, mut work: impl FnMut() -> u64) -> f64 {
    let once = |_| {
        let start = Instant::now();
        let mut all = 0;
        for turn in 0..turns {
            all = next(all ^ work() ^ u64::from(turn));
        }
        black_box(all);
        start.elapsed().as_nanos()
    };
    let least = (0..RUNS).map(once).min().unwrap_or(0);
    least as f64 / (f64::from(turns) * PAIRS as f64)
}

fn bits(q: &Ratio<i128>) -> u64 {
    (q.numer().unsigned_abs() ^ q.denom().unsigned_abs()) as u64
}

fn main() {
    let mut words = std::env::args().skip(1);
    let checked = words.next().as_deref() == Some("checked");
    let turns: u32 = words.next().and_then(|word| word.parse().ok()).unwrap_or(1);
    for (name, kind) in [("whole", Kind::Whole), ("decimal", Kind::Decimal), ("middle", Kind::Middle), ("long", Kind::Long)] {
        let xs = numbers(kind, 88172645463325252);
        let ys = numbers(kind, 1181783497276652981);
        let pairs = || xs.iter().zip(ys.iter());
        let (sum, product) = if checked {
            (
                time(turns, || pairs().fold(0, |all, (x, y)| all ^ x.checked_add(y).map_or(1, |q| bits(&q)))),
                time(turns, || pairs().fold(0, |all, (x, y)| all ^ x.checked_mul(y).map_or(1, |q| bits(&q)))),
            )
        } else {
            (
                time(turns, || pairs().fold(0, |all, (x, y)| all ^ bits(&(x + y)))),
                time(turns, || pairs().fold(0, |all, (x, y)| all ^ bits(&(x * y)))),
            )
        };
        let comparison = time(turns, || pairs().fold(0, |all, (x, y)| next(all ^ u64::from(x < y))));
        println!("{name} {:.0} {:.0} {:.0}", sum * 10.0, product * 10.0, comparison * 10.0);
    }
}
