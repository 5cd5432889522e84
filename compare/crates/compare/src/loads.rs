//! Damaged and random texts: what can be loaded, and which token is wrong, by
//! the reference, by the second check and by every port.

use case::{Case, Port};
use generator::{damaged, generate, Random};
use reference::{
    wrong::{Wrong, ALL as MISREADINGS},
    Rules,
};

use crate::{second, shrink};

type Loaded = Result<u64, (u32, u64)>;

/// The text of this number among those of this seed, with source and tables.
fn text(seed: u64, index: u64) -> Case {
    let mut case = generate(seed, index).case;
    let random = &mut Random::new(seed ^ 0x5EED, index);
    if random.chance(95) {
        case.form = damaged(random, &case.form, case.source.len());
    }
    let brackets = case.form.iter().filter(|&&b| b == b'(').count();
    case.options.nodes = match random.below(12) {
        0 => random.between(14, 40),
        1 => *random.pick(&[15, 16, 8191, 8192, 8193]),
        2 => brackets.max(16) - random.below(2),
        _ => 8192,
    };
    case.notes.clear();
    case
}

fn difference(case: &Case, ports: &mut [Box<dyn Port>]) -> Option<String> {
    let Case { form, source, options, .. } = case;
    let wanted = by_reference(case);
    let show = |who: &str, found: &Loaded| {
        format!(
            "{who}: {}",
            match found {
                Ok(nodes) => format!("{nodes} nodes"),
                Err((number, place)) => format!("{number} at {place}"),
            }
        )
    };
    let found = second::load(form, source.len(), options.nodes);
    if found != wanted {
        let (one, other) = (show("the reference", &wanted), show("the second check", &found));
        return Some(format!("{one}, {other}"));
    }
    for port in ports {
        let found = port.load(form, source, options.nodes);
        if found != wanted {
            let (one, other) = (show("the reference", &wanted), show(&port.name(), &found));
            return Some(format!("{one}, {other}"));
        }
    }
    None
}

fn by_reference(case: &Case) -> Loaded {
    misread(case, Wrong::None)
}

fn misread(case: &Case, wrong: Wrong) -> Loaded {
    let rules = Rules { wrong, ..Rules::default() };
    reference::load_by(rules, &case.form, &case.source, case.options.nodes)
        .map(|module| module.nodes() as u64)
        .map_err(|refusal| (refusal.number, refusal.place))
}

/// Whether all agree.
pub fn loads(texts: u64, seed: u64, ports: &mut [Box<dyn Port>]) -> bool {
    let mut loaded = 0u64;
    let mut refused = [0u64; 5];
    let mut at_start = 0u64;
    let mut furthest = 0;
    let mut differing = 0u64;
    for index in 0..texts {
        let case = text(seed, index);
        match by_reference(&case) {
            Ok(_) => loaded += 1,
            Err((number, place)) => {
                refused[number as usize] += 1;
                at_start += u64::from(place < 10 && number < 4);
                furthest = furthest.max(place);
            }
        }
        let Some(words) = difference(&case, ports) else { continue };
        if differing == 0 {
            println!("text {index} of seed {seed}: {words}");
            let smaller = shrink::shrink(&case, &mut |case| difference(case, ports).is_some());
            println!("{}", difference(&smaller, ports).unwrap_or_default());
            println!("form: {:?}", String::from_utf8_lossy(&smaller.form));
            println!("source of {} bytes, {} nodes", smaller.source.len(), smaller.options.nodes);
        }
        differing += 1;
    }
    println!(
        "{texts} texts of seed {seed}: {loaded} loaded; refused {} with 1, {} with 2, {} with 3, \
         {} with 4 ({at_start} within the first ten bytes, the furthest at {furthest}); \
         {differing} differ",
        refused[1], refused[2], refused[3], refused[4]
    );
    differing == 0
}

/// The misreadings that the second check shows, each with the texts until then.
pub fn reach(texts: u64, seed: u64) {
    let mut caught: Vec<Option<u64>> = vec![None; MISREADINGS.len()];
    for index in 0..texts {
        let case = text(seed, index);
        let right = second::load(&case.form, case.source.len(), case.options.nodes);
        for (found, &(wrong, ..)) in caught.iter_mut().zip(MISREADINGS) {
            if found.is_none() && misread(&case, wrong) != right {
                *found = Some(index + 1);
            }
        }
    }
    println!("\nShown by the second check, in damaged texts of seed {seed}:\n");
    println!("| | the rule misread | caught at |\n|---|---|---|");
    for (i, (found, (_, _, words))) in caught.iter().zip(MISREADINGS).enumerate() {
        if let Some(found) = found {
            println!("| {} | {words} | {found} |", i + 1);
        }
    }
}
