//! The port, timed by repeating a step: the time that more repetitions add,
//! so that what is done once (making the tables) does not count.

use std::time::Instant;

/// More than any module prints.
const ROOM: usize = 393_216;

pub struct Times {
    pub load: f64,
    pub run: f64,
    pub print: f64,
    pub printed: Vec<u8>,
}

struct Timer<'a> {
    form: &'a [u8],
    source: &'a [u8],
    out: Vec<u8>,
}

impl Timer<'_> {
    fn once(&mut self, runs: bool, loads: usize, prints: usize) -> f64 {
        let clock = Instant::now();
        port::repeat(self.form, self.source, runs, loads, prints, &mut self.out);
        clock.elapsed().as_nanos() as f64
    }

    /// Nanoseconds that one repetition adds: the median of some differences.
    fn each(&mut self, rounds: usize, mut of: impl FnMut(&mut Self, usize) -> f64, times: usize) -> f64 {
        let mut found: Vec<f64> = (0..rounds)
            .map(|_| {
                let few = of(self, times);
                let many = of(self, 2 * times);
                (many - few) / times as f64
            })
            .collect();
        found.sort_by(f64::total_cmp);
        found[found.len() / 2]
    }
}

pub fn time(form: &[u8], source: &[u8], rounds: usize, nodes: usize) -> Times {
    let times = (60_000 / nodes).max(10);
    let mut timer = Timer { form, source, out: vec![0; ROOM] };
    let load = timer.each(rounds, |t, n| t.once(false, n, 0), times);
    let both = timer.each(rounds, |t, n| t.once(true, n, 0), times);
    let print = timer.each(rounds, |t, n| t.once(true, 1, n), times);
    let bytes = port::repeat(form, source, true, 1, 1, &mut timer.out);
    timer.out.truncate(bytes);
    Times { load, run: both - load, print, printed: timer.out }
}
