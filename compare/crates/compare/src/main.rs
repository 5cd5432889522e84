//! `compare [CASES] [SEED]`: random modules through the published pass and
//! through the rules as written plainly, and through every port plugged in.
//! `compare --case SEED INDEX` shows one case in full; `compare --reach [CASES]
//! [SEED] [SEEDS]` tells how soon each misreading of a rule shows; `compare
//! --load [TEXTS] [SEED]` loads damaged and random texts; `compare --answers
//! FOLDER [SEED]` writes a table of answers of the published pass; `compare
//! --table STDIN STDOUT` holds such a table against the rules; `compare --faults
//! [SEED]` shows small inputs for each fault of the published pass.

mod answers;
mod check;
mod loads;
mod ports;
mod reach;
mod second;
mod shrink;
mod table;

use std::{env, fs, path::Path, process::exit};

use case::{Case, Port};
use check::{check, Counts};
use generator::Generated;

fn main() {
    let arguments: Vec<String> = env::args().skip(1).collect();
    let number = |i: usize, default: u64| {
        match arguments.get(i) {
        Some(text) => text.parse().unwrap_or_else(|_| {
            eprintln!("arguments: [CASES] [SEED]; --case, --reach, --load, --answers, --table or --faults");
            exit(2)
        }),
        None => default,
    }
    };
    let mut ports = ports::ports();
    if arguments.first().is_some_and(|a| a == "--case") {
        let (seed, index) = (number(1, 1), number(2, 0));
        exit(show(seed, index, &mut ports));
    }
    if arguments.first().is_some_and(|a| a == "--reach") {
        let all = reach::reach(number(1, 1000), number(2, 1), number(3, 5));
        loads::reach(number(1, 1000), number(2, 1));
        exit(if all { 0 } else { 1 });
    }
    if arguments.first().is_some_and(|a| a == "--answers") && arguments.len() > 1 {
        exit(tell(answers::write_answers(Path::new(&arguments[1]), number(2, 1))));
    }
    if arguments.first().is_some_and(|a| a == "--table") && arguments.len() > 2 {
        let read = |i: usize| fs::read(&arguments[i]).map_err(|e| format!("{}: {e}", arguments[i]));
        exit(tell(read(1).and_then(|stdin| table::check(&stdin, &read(2)?))));
    }
    if arguments.first().is_some_and(|a| a == "--faults") {
        print!("{}", answers::show_faults(number(1, 1)));
        exit(0);
    }
    if arguments.first().is_some_and(|a| a == "--load") {
        let all = loads::loads(number(1, 100_000), number(2, 1), &mut ports);
        exit(if all { 0 } else { 1 });
    }
    let (cases, seed) = (number(0, 100_000), number(1, 1));
    let mut counts = Counts::default();
    let mut differing = 0u64;
    for index in 0..cases {
        let generated = generator::generate(seed, index);
        if let Err(difference) = check(&generated, &mut ports, &mut counts) {
            if differing == 0 {
                println!("case {index} of seed {seed}: {difference}");
                print_case(&generated.case);
                print_smaller(&generated.case, &mut ports);
            }
            differing += 1;
        }
    }
    println!("{}", counts.details());
    println!("{cases} cases of seed {seed}: {}, {differing} differ", counts.line());
    exit(if differing == 0 { 0 } else { 1 });
}

fn tell(answer: Result<String, String>) -> i32 {
    let (Ok(words) | Err(words)) = &answer;
    println!("{words}");
    i32::from(answer.is_err())
}

fn show(seed: u64, index: u64, ports: &mut [Box<dyn Port>]) -> i32 {
    let generated = generator::generate(seed, index);
    print_case(&generated.case);
    match check(&generated, ports, &mut Counts::default()) {
        Ok(()) => {
            println!("no difference");
            0
        }
        Err(difference) => {
            println!("{difference}");
            print_smaller(&generated.case, ports);
            1
        }
    }
}

/// The case with all left out that doesn't matter for the difference.
fn print_smaller(case: &Case, ports: &mut [Box<dyn Port>]) {
    let mut difference = |case: &Case| {
        let generated = Generated { case: case.clone(), spoilt: None };
        check(&generated, ports, &mut Counts::default()).err()
    };
    let smaller = shrink::shrink(case, &mut |case| difference(case).is_some());
    if let Some(difference) = difference(&smaller) {
        println!("the same, as small as it gets: {difference}");
        print_case(&smaller);
    }
}

fn print_case(case: &Case) {
    println!("form:\n{}", String::from_utf8_lossy(&case.form));
    println!("source: {:?}", String::from_utf8_lossy(&case.source));
    println!("notes:\n{}", String::from_utf8_lossy(&case::write_notes(&case.notes)));
    println!("options:\n{}", String::from_utf8_lossy(&case::write_options(&case.options)));
}

#[cfg(test)]
mod tests {
    use case::{Note, Options};
    use reference::{Rules, Wrong};

    use super::*;

    /// A port that misreads a rule.
    struct Misreads(Wrong);

    impl Port for Misreads {
        fn name(&self) -> String {
            "misreads".into()
        }

        fn instrument(
            &mut self,
            form: &[u8],
            source: &[u8],
            notes: &[Note],
            options: &Options,
        ) -> Result<String, (u32, u64)> {
            let rules = Rules { wrong: self.0, ..Rules::default() };
            match reference::instrument_by(rules, form, source, notes, options) {
                Ok(printed) => Ok(String::from_utf8_lossy(&printed).into_owned()),
                Err(refusal) => Err((refusal.number, refusal.place)),
            }
        }
    }

    /// How many of a hundred and fifty cases differ for a port.
    fn differing(wrong: Wrong) -> usize {
        let mut ports: Vec<Box<dyn Port>> = vec![Box::new(Misreads(wrong))];
        let mut differs = |index: &u64| {
            check(&generator::generate(1, *index), &mut ports, &mut Counts::default()).is_err()
        };
        (0..150).filter(&mut differs).count()
    }

    #[test]
    fn a_wrong_port_is_found() {
        assert_eq!(differing(Wrong::None), 0);
        assert!(differing(Wrong::ListedOnce) > 0);
        assert!(differing(Wrong::NumberFirst) > 0);
        assert!(differing(Wrong::NodesBelow) > 0);
    }

    #[test]
    fn a_port_that_loads_wrongly_is_found() {
        let loads = |wrong: Wrong| {
            let mut ports: Vec<Box<dyn Port>> = vec![Box::new(Misreads(wrong))];
            loads::loads(500, 1, &mut ports)
        };
        assert!(loads(Wrong::None));
        assert!(!loads(Wrong::PlaceBehind));
        assert!(!loads(Wrong::Depth65));
    }
}
