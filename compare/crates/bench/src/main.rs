//! `bench [ROUNDS]`: modules of ordinary component code through everyone, timed
//! step by step, with what is taken from the heap; and a plain scan of the same
//! text, which no reader can be faster than.

mod heap;
mod module;
mod ours;
mod parties;

use std::{env, hint::black_box, time::Instant};

use case::Case;
use heap::{Counting, Mark};
use parties::{parties, Step};

#[global_allocator]
static HEAP: Counting = Counting;

const SIZES: [usize; 4] = [100, 500, 2000, 6000];

/// Time, times taken from the heap and most held, of one step.
#[derive(Clone, Copy, Default)]
struct Cost {
    nanoseconds: u128,
    taken: usize,
    held: usize,
}

fn main() {
    let rounds: usize = env::args().nth(1).and_then(|a| a.parse().ok()).unwrap_or(30);
    println!("Median of {rounds} rounds; ns are per node of the module loaded.\n");
    println!("| nodes | bytes | who | load ns | run ns | print ns | run: taken from the heap | run: most held, bytes |");
    println!("|---|---|---|---|---|---|---|---|");
    for nodes in SIZES {
        let (form, source) = module::module(nodes);
        let case = Case { form: form.into(), source: source.into(), ..Case::default() };
        let bytes = case.form.len();
        assert_eq!(case.form.iter().filter(|&&b| b == b'(').count(), nodes);
        println!(
            "| {nodes} | {bytes} | scan of the form | {:.2} | | | 0 | 0 |",
            floor(&case.form, rounds, nodes)
        );
        let mut printed: Option<Vec<u8>> = None;
        for mut party in parties() {
            // Once to see that all print the same, and to warm up.
            let found = party.round(&case, &mut |_| ());
            match &printed {
                Some(first) => assert!(*first == found, "{} prints something else", party.name()),
                None => printed = Some(found),
            }
            let mut costs: [Vec<Cost>; 3] = Default::default();
            for _ in 0..rounds {
                let mut mark = Mark::start();
                let mut clock = Instant::now();
                black_box(party.round(black_box(&case), &mut |step| {
                    let nanoseconds = clock.elapsed().as_nanos();
                    let (taken, held) = mark.so_far();
                    let place = match step {
                        Step::Loaded => 0,
                        Step::Ran => 1,
                        Step::Printed => 2,
                    };
                    costs[place].push(Cost { nanoseconds, taken, held });
                    mark = Mark::start();
                    clock = Instant::now();
                }));
            }
            let [load, run, print] = costs.map(median);
            let each = |cost: Cost| format!("{:.1}", cost.nanoseconds as f64 / nodes as f64);
            println!(
                "| {nodes} | {bytes} | {} | {} | {} | {} | {} | {} |",
                party.name(),
                each(load),
                each(run),
                each(print),
                run.taken,
                run.held
            );
        }
        let ours = ours::time(&case.form, &case.source, rounds, nodes);
        assert!(printed.as_ref() == Some(&ours.printed), "the port prints something else");
        let each = |nanoseconds: f64| nanoseconds / nodes as f64;
        println!(
            "| {nodes} | {bytes} | the port | {:.1} | {:.1} | {:.1} | 0 | 0 |",
            each(ours.load),
            each(ours.run),
            each(ours.print)
        );
    }
    println!("\nThe port's tables take {} bytes for each node that they have room for.", port::bytes_per_node());
}

fn median(mut costs: Vec<Cost>) -> Cost {
    costs.sort_by_key(|cost| cost.nanoseconds);
    costs[costs.len() / 2]
}

/// Nanoseconds per node of a scan byte by byte that only follows the nesting.
fn floor(text: &[u8], rounds: usize, nodes: usize) -> f64 {
    let mut times: Vec<u128> = Vec::new();
    for _ in 0..rounds {
        let clock = Instant::now();
        black_box(deepest(black_box(text)));
        times.push(clock.elapsed().as_nanos());
    }
    times.sort();
    times[times.len() / 2] as f64 / nodes as f64
}

fn deepest(text: &[u8]) -> (usize, usize) {
    let (mut open, mut most, mut lines) = (0usize, 0, 0);
    for &byte in text {
        match byte {
            b'(' => {
                open += 1;
                most = most.max(open);
            }
            b')' => open = open.saturating_sub(1),
            b'\n' => lines += 1,
            _ => {}
        }
    }
    (most, lines)
}
