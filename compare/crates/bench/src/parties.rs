//! Who is timed. All do the same rounds: load, run, print.

use case::Case;

#[derive(Clone, Copy, PartialEq, Eq)]
pub enum Step {
    Loaded,
    Ran,
    Printed,
}

pub trait Party {
    fn name(&self) -> &'static str;

    /// One round; `done` is called after each step, with nothing between the
    /// steps. Answers what was printed.
    fn round(&mut self, case: &Case, done: &mut dyn FnMut(Step)) -> Vec<u8>;
}

/// The published pass: swc's tree (stand-ins) from the form, the pass, the form
/// again. Load and print are not swc's own; only its run is.
pub struct Published;

impl Party for Published {
    fn name(&self) -> &'static str {
        "the Rust"
    }

    fn round(&mut self, case: &Case, done: &mut dyn FnMut(Step)) -> Vec<u8> {
        let form = std::str::from_utf8(&case.form).expect("ASCII");
        let source = std::str::from_utf8(&case.source).expect("ASCII");
        let mut step = 0;
        let printed = oracle::in_steps(form, source, &case.notes, &case.options, &mut || {
            done([Step::Loaded, Step::Ran][step]);
            step += 1;
        });
        done(Step::Printed);
        printed.expect("a lawful form").into_bytes()
    }
}

/// The rules written plainly, in Rust, for correctness and not for speed.
pub struct Reference;

impl Party for Reference {
    fn name(&self) -> &'static str {
        "the rules"
    }

    fn round(&mut self, case: &Case, done: &mut dyn FnMut(Step)) -> Vec<u8> {
        let Case { form, source, notes, options } = case;
        let mut module = reference::load(form, source, options.nodes).expect("lawful");
        done(Step::Loaded);
        let rules = reference::Rules::default();
        reference::run(&mut module, source, notes, options, rules).expect("within the tables");
        done(Step::Ran);
        let printed = reference::print::print(&module);
        done(Step::Printed);
        printed
    }
}

/// Everyone timed step by step; the port is timed by repeating a step.
pub fn parties() -> Vec<Box<dyn Party>> {
    vec![Box::new(Published), Box::new(Reference)]
}
