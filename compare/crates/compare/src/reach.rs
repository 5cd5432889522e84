//! How soon each misreading of a rule shows: the reference is made to follow it,
//! and its answers are held against the published pass, or against the
//! reference as it is where the published pass has no say.

use case::Case;
use reference::{
    wrong::{Judge, Wrong, ALL as MISREADINGS},
    Rules,
};

use crate::check::{at_the_limit, by_oracle, by_rules, has_wrapper, Printed, ALL};

/// For each misreading after how many of the seed's cases it shows, `None` if it
/// doesn't.
fn caught(cases: u64, seed: u64) -> Vec<Option<u64>> {
    let mut caught = vec![None; MISREADINGS.len()];
    for index in 0..cases {
        if caught.iter().all(Option::is_some) {
            break;
        }
        let case = generator::generate(seed, index).case;
        let right = by_rules(&case, Rules::default());
        let published = published(&case, &right);
        let limits = at_the_limit(&case, &right);
        for (found, &(wrong, judge, _)) in caught.iter_mut().zip(MISREADINGS) {
            if found.is_some() {
                continue;
            }
            let shows = match (judge, &published) {
                (Judge::Rules, _) => {
                    differs(&case, &right, wrong)
                        || limits.iter().any(|(case, right)| differs(case, right, wrong))
                }
                (Judge::Pass, Some(published)) => {
                    by_rules(&case, Rules { wrong, faults: ALL }) != *published
                }
                (Judge::Pass, None) => false,
            };
            if shows {
                *found = Some(index + 1);
            }
        }
    }
    caught
}

fn differs(case: &Case, right: &Printed, wrong: Wrong) -> bool {
    by_rules(case, Rules { wrong, ..Rules::default() }) != *right
}

/// What the published pass makes of a case, if it has a say.
fn published(case: &Case, right: &Printed) -> Option<Printed> {
    let module = reference::load(&case.form, &case.source, case.options.nodes).ok()?;
    if right.as_ref().is_err_and(|refusal| refusal.number != 4) {
        return None;
    }
    if has_wrapper(&module, &case.options) {
        return None;
    }
    by_oracle(case).ok()
}

/// Prints the table; whether each misreading showed in every seed.
pub fn reach(cases: u64, seed: u64, seeds: u64) -> bool {
    let runs: Vec<Vec<Option<u64>>> = (seed..seed + seeds).map(|s| caught(cases, s)).collect();
    let show = |found: Option<u64>| found.map_or("not caught".to_string(), |n| n.to_string());
    println!("| | the rule misread | held against | caught at | latest of {seeds} seeds |");
    println!("|---|---|---|---|---|");
    let mut missed = 0;
    let mut worst = 0;
    for (i, (_, judge, words)) in MISREADINGS.iter().enumerate() {
        let latest = runs.iter().map(|run| run[i]).try_fold(0, |most, n| Some(most.max(n?)));
        let judge = match judge {
            Judge::Pass => "the Rust",
            Judge::Rules => "the rules",
        };
        println!("| {} | {words} | {judge} | {} | {} |", i + 1, show(runs[0][i]), show(latest));
        match latest {
            Some(latest) => worst = worst.max(latest),
            None => missed += 1,
        }
    }
    println!();
    println!(
        "{} misreadings, seeds {seed} to {}, at most {cases} trees each: {missed} not caught in \
         each seed, the others within {worst}",
        MISREADINGS.len(),
        seed + seeds - 1
    );
    missed == 0
}
