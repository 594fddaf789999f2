//! The command line of the reference.

use reference::compare::programs::{Program, TWIN};
use reference::compare::{self, tally};
use reference::fuzz::{self, Failure, Tally};
use reference::rule::Rule;
use reference::towers::agree;
use reference::{
    bench, counting, emit, emptying, events, explain, offsets, program, samples, theorems as text,
};
use std::env;
use std::fs;
use std::path::Path;
use std::process::ExitCode;

const USAGE: &str = "usage:
  reference check FILE          the program's line for this image
  reference explain FILE        the layout, or every broken rule
  reference emit DIR SEED N     N images with the program's lines
  reference fuzz SEED N         N lists of calls, N that empty full cards, N on offset tables, N about
                                the free count, N damaged images, N images searched by towers
  reference compare P SEED N    N images, lists of calls, pairs of keys against P, twin or library
  reference bench               times of the twin and the library, in Markdown
  reference samples DIR         the sample cards with the program's lines
  reference theorems SEED N     N images with a call and a search each, as theorems of the text";

fn main() -> ExitCode {
    let arguments: Vec<String> = env::args().skip(1).collect();
    let arguments: Vec<&str> = arguments.iter().map(String::as_str).collect();
    let outcome = match arguments.as_slice() {
        ["check", file] => check(file),
        ["explain", file] => explain(file),
        ["emit", folder, seed, count] => emit(folder, seed, count),
        ["fuzz", seed, count] => fuzz(seed, count),
        ["compare", other, seed, count] => compare(other, seed, count),
        ["bench"] => bench(),
        ["samples", folder] => samples(folder),
        ["theorems", seed, count] => theorems(seed, count),
        _ => Err(USAGE.to_owned()),
    };
    match outcome {
        Ok(()) => ExitCode::SUCCESS,
        Err(message) => {
            eprintln!("{message}");
            ExitCode::FAILURE
        }
    }
}

fn check(file: &str) -> Result<(), String> {
    let input = fs::read(file).map_err(|error| format!("{file}: {error}"))?;
    println!("{}", program::line(&input));
    Ok(())
}

fn explain(file: &str) -> Result<(), String> {
    let image = fs::read(file).map_err(|error| format!("{file}: {error}"))?;
    print!("{}", explain::explain(&image));
    Ok(())
}

fn emit(folder: &str, seed: &str, count: &str) -> Result<(), String> {
    let (seed, count) = (number(seed)?, number(count)?);
    emit::emit(Path::new(folder), seed, count).map_err(|error| format!("{folder}: {error}"))
}

fn theorems(seed: &str, count: &str) -> Result<(), String> {
    let (seed, count) = (number(seed)?, number(count)?);
    print!("{}", text::module(seed, count));
    Ok(())
}

fn fuzz(seed: &str, count: &str) -> Result<(), String> {
    let (seed, count) = (number(seed)?, number(count)?);
    let tally = fuzz::fuzz(seed, count).map_err(|failure| again("fuzz", failure))?;
    print!("{}", tally::calls_table(&tally.calls));
    print_events(&tally);
    for (reached, all) in [
        (&tally.emptying, emptying::all()),
        (&tally.offsets, offsets::all()),
        (&tally.counting, counting::all()),
        (&tally.searches, agree::all()),
    ] {
        print!("{}", tally::cases_table(reached, &all));
    }
    print_damage(&tally);
    println!("{count} passed, 0 failed");
    Ok(())
}

fn compare(other: &str, seed: &str, count: &str) -> Result<(), String> {
    let (seed, count) = (number(seed)?, number(count)?);
    let other = other_program(other)?;
    let command = format!("compare {}", other.name);
    let failed = |failure| again(&command, failure);
    let mut tally = compare::images(&other, seed, count).map_err(failed)?;
    print!(
        "{}",
        tally::cases_table(&tally.cases, &counting::accepted())
    );
    tally.add(compare::lists(&other, seed, count).map_err(failed)?);
    tally.add(compare::long_lists(&other, seed, count.div_ceil(100)).map_err(failed)?);
    tally.add(compare::read_lists(&other, seed, count).map_err(failed)?);
    for aimed in compare::AIMED {
        let count = count.div_ceil(aimed.one_in);
        let reached = (aimed.compare)(&other, seed, count).map_err(failed)?;
        print!("{}", tally::cases_table(&reached.cases, &(aimed.cases)()));
        tally.add(reached);
    }
    print!("{}", tally::images_table(&tally));
    print!("{}", tally::calls_table(&tally.calls));
    println!("{count} passed, 0 failed");
    Ok(())
}

fn samples(folder: &str) -> Result<(), String> {
    samples::write(Path::new(folder)).map_err(|error| format!("{folder}: {error}"))
}

fn bench() -> Result<(), String> {
    let library = other_program("library").ok();
    print!("{}", bench::bench(library.as_ref()));
    Ok(())
}

/// The program of this name that the reference is compared with.
fn other_program(name: &str) -> Result<Program, String> {
    match name {
        "twin" => Ok(TWIN),
        #[cfg(feature = "library")]
        "library" => Ok(reference::library::LIBRARY),
        _ => Err(format!("{name} is no program that is linked")),
    }
}

/// What failed, and the command that shows it again.
fn again(command: &str, failure: Failure) -> String {
    let (what, seed) = (failure.what, failure.seed);
    format!("{what}\nrun again with: reference {command} {seed} 1")
}

fn number(text: &str) -> Result<u64, String> {
    text.parse().map_err(|_| format!("{text} is no number"))
}

fn print_events(tally: &Tally) {
    println!("{:36}{:>8}", "in done calls", "times");
    for event in events::ALL {
        let count = tally.events.get(event).copied().unwrap_or(0);
        println!("{event:36}{count:>8}");
    }
}

fn print_damage(tally: &Tally) {
    println!(
        "{:22}{:>8}{:>10}{:>8}",
        "damage", "images", "reported", "alone"
    );
    for rule in Rule::ALL {
        let count = tally.damaged.get(rule).copied().unwrap_or_default();
        println!(
            "{:22}{:>8}{:>10}{:>8}",
            rule.to_string(),
            count.images,
            count.reported,
            count.alone
        );
    }
    let (accepted, rejected) = tally.set_anew;
    println!("bytes set anew: {accepted} accepted, {rejected} rejected");
}
