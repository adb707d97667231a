// The best time of some runs, in nanoseconds, and what the last one gave.
pub fn best<T>(runs: usize, mut work: impl FnMut() -> T) -> (f64, T) {
    let mut least = f64::INFINITY;
    let mut last = None;
    for _ in 0..runs {
        let began = std::time::Instant::now();
        let given = std::hint::black_box(work());
        least = least.min(began.elapsed().as_nanos() as f64);
        last = Some(given);
    }
    (least, last.expect("a run"))
}
