//! Two ways of doing the same, timed in turn.

const ROUNDS: usize = 5;

/// The medians of five, in microseconds. A way gives its time and what it leaves, which is to be the same for both.
pub fn medians<T: PartialEq>(ways: [&dyn Fn() -> (f64, T); 2]) -> [f64; 2] {
    let mut times = [[0.0; ROUNDS]; 2];
    for round in 0..ROUNDS {
        let left = ways.map(|way| way());
        assert!(left[0].1 == left[1].1, "both leave the same");
        for (times, left) in times.iter_mut().zip(left) {
            times[round] = left.0;
        }
    }
    times.map(|mut times| {
        times.sort_by(f64::total_cmp);
        times[ROUNDS / 2]
    })
}
