//! Times two things in turn: the best and the median of so many rounds of each.
use std::hint::black_box;
use std::time::Instant;

/// Seconds.
pub struct Time {
    pub best: f64,
    pub median: f64,
}

/// Times both in turn, one round of each; which goes first changes with each round.
pub fn in_turn<A, B>(rounds: usize, mut a: impl FnMut() -> A, mut b: impl FnMut() -> B) -> (Time, Time) {
    let (mut of_a, mut of_b) = (Vec::new(), Vec::new());
    for round in 0..rounds {
        if round % 2 == 0 {
            of_a.push(timed(&mut a));
            of_b.push(timed(&mut b));
        } else {
            of_b.push(timed(&mut b));
            of_a.push(timed(&mut a));
        }
    }
    let time = |mut list: Vec<f64>| {
        list.sort_by(f64::total_cmp);
        Time { best: list[0], median: list[list.len() / 2] }
    };
    (time(of_a), time(of_b))
}

fn timed<T>(mut f: impl FnMut() -> T) -> f64 {
    let begun = Instant::now();
    black_box(f());
    begun.elapsed().as_secs_f64()
}
