//! `generate SEED INDEX FOLDER`: writes one case as `in.form`, `in.src`,
//! `in.notes` and `in.options`.
use std::{env, path::Path, process::exit};

fn main() {
    let arguments: Vec<String> = env::args().skip(1).collect();
    let numbers: Vec<u64> = arguments.iter().take(2).filter_map(|a| a.parse().ok()).collect();
    let ([seed, index], Some(folder)) = (&numbers[..], arguments.get(2)) else {
        eprintln!("arguments: SEED INDEX FOLDER");
        exit(2);
    };
    let generated = generator::generate(*seed, *index);
    if let Err(error) = generated.case.write(Path::new(folder)) {
        eprintln!("{folder}: {error}");
        exit(1);
    }
}
