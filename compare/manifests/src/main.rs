//! Compares the proved manifest reader with the one in `manifest.rs`, which was written from document 01 by itself.
//! The arguments are the command that runs the program `verdicts`.

mod classes;
mod random;

use classes::{Class, Meant};
use manifests::manifest::Manifest;
use manifests::run;
use std::process::ExitCode;

/// Of the manifests whose verdicts differ this many are printed.
const SHOWN: usize = 20;

/// Fewer manifests than these compare too little.
const LEAST: usize = 20_000;

fn main() -> ExitCode {
    let words: Vec<String> = std::env::args().skip(1).collect();
    let command: Vec<&str> = words.iter().map(String::as_str).collect();
    if command.is_empty() {
        eprintln!("usage: manifests COMMAND WORD..");
        return ExitCode::from(2);
    }
    match compare(&command) {
        Ok(()) => ExitCode::SUCCESS,
        Err(reason) => {
            println!("manifests: FAILED: {reason}");
            ExitCode::FAILURE
        }
    }
}

fn compare(command: &[&str]) -> Result<(), String> {
    let classes = classes::all();
    let answers = run(command, &stream(&classes))?;
    let answers: Vec<&str> = answers.lines().collect();
    let total = classes.iter().map(|class| class.manifests.len()).sum();
    if answers.len() != total {
        return Err(format!("{} answers to {total} manifests, the last {:?}", answers.len(), answers.last()));
    }
    let mut answers = answers.into_iter();
    let mut differ = 0;
    let mut unmeant = 0;
    println!("{:36} {:>7} {:>7}", "class", "good", "bad");
    for class in &classes {
        let mut good = 0;
        for bytes in &class.manifests {
            let ours = if Manifest::read(bytes).is_some() { "0" } else { "3" };
            let theirs = answers.next().unwrap();
            good += usize::from(ours == "0");
            if theirs != ours {
                differ += 1;
            }
            if theirs != ours && differ <= SHOWN {
                println!("DIFFERS: {}: {}: {theirs}, and from the document {ours}", class.name, hex(bytes));
            }
        }
        let bad = class.manifests.len() - good;
        println!("{:36} {good:7} {bad:7}", class.name);
        if !is_as_meant(class.meant, good, bad) {
            unmeant += 1;
            println!("NOT AS MEANT: {}", class.name);
        }
    }
    if differ + unmeant > 0 || total < LEAST {
        return Err(format!("{total} compared (at least {LEAST}), {differ} differ, {unmeant} classes not as meant"));
    }
    println!("manifests: {} compared, 0 differ", thousands(total));
    Ok(())
}

fn is_as_meant(meant: Meant, good: usize, bad: usize) -> bool {
    match meant {
        Meant::Good => good > 0 && bad == 0,
        Meant::Bad => good == 0 && bad > 0,
        Meant::Both => good > 0 && bad > 0,
        Meant::Any => good + bad > 0,
    }
}

/// Every manifest after its u16 length, as `verdicts` reads them.
fn stream(classes: &[Class]) -> Vec<u8> {
    let mut out = Vec::new();
    for bytes in classes.iter().flat_map(|class| &class.manifests) {
        let length = u16::try_from(bytes.len()).expect("a manifest of a class fits its length");
        out.extend(length.to_le_bytes());
        out.extend(bytes);
    }
    out
}

fn hex(bytes: &[u8]) -> String {
    bytes.iter().map(|byte| format!("{byte:02x}")).collect()
}

fn thousands(n: usize) -> String {
    if n < 1000 {
        n.to_string()
    } else {
        format!("{},{:03}", thousands(n / 1000), n % 1000)
    }
}
