//! `oracle FORM SOURCE [NOTES] [OPTIONS]`: what the published pass makes of one
//! module, on standard output, its handles numbered by first appearance;
//! `oracle --made …` numbers them as made.
use std::{env, process::exit};

use case::{renumber, Case};

fn main() {
    let mut arguments: Vec<String> = env::args().skip(1).collect();
    let made = arguments.first().is_some_and(|a| a == "--made");
    if made {
        arguments.remove(0);
    }
    let result = Case::from_arguments(&arguments).and_then(|case| {
        let form = String::from_utf8(case.form).map_err(|e| format!("form: {e}"))?;
        let source = String::from_utf8(case.source).map_err(|e| format!("source: {e}"))?;
        oracle::instrument(&form, &source, &case.notes, &case.options)
    });
    match result {
        Ok(printed) if made => print!("{printed}"),
        Ok(printed) => print!("{}", renumber(&printed)),
        Err(error) => {
            eprintln!("oracle: {error}");
            exit(2);
        }
    }
}
