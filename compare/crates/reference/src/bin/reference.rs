//! `reference FORM SOURCE [NOTES] [OPTIONS]`: what the rules make of one module,
//! on standard output, its handles numbered as made; or `refused: NUMBER PLACE`
//! on standard error, with status 1.
use std::{
    env,
    io::{stdout, Write},
    process::exit,
};

use case::Case;

fn main() {
    let arguments: Vec<String> = env::args().skip(1).collect();
    let case = match Case::from_arguments(&arguments) {
        Ok(case) => case,
        Err(error) => {
            eprintln!("reference: {error}");
            exit(2);
        }
    };
    match reference::instrument(&case.form, &case.source, &case.notes, &case.options) {
        Ok(printed) => stdout().write_all(&printed).expect("standard output"),
        Err(refusal) => {
            eprintln!("refused: {} {}", refusal.number, refusal.place);
            exit(1);
        }
    }
}
