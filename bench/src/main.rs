//! The command: times the core beside the safe implementation or an older core, and prints ratios. Uses the library.
//! Times are of one machine and one day; ratios in one process are what can be compared.

use hop_bench::measure::{self, Best};
use hop_bench::rows::{NODE_COUNTS, Row, checks, rows};
use hop_bench::safe::Safe;
use hop_harness::core::{before, before_lacks, core};
use hop_harness::engine::Engine;
use std::hint::black_box;
use std::process::ExitCode;

fn heading(text: &str, columns: &[String]) {
    let columns: String = columns.iter().map(|column| format!("{column:>14}")).collect();
    println!("\n{text:<34}{columns}");
}

fn line(name: &str, numbers: &[f64]) {
    let numbers: String = numbers.iter().map(|number| format!("{number:>14.2}")).collect();
    println!("{name:<34}{numbers}");
}

fn node_counts() -> Vec<String> {
    NODE_COUNTS.iter().map(|n| format!("n = {n}")).collect()
}

/// The best times of each row whose name has a word and whose call both have, for each node count.
fn times(
    core: &dyn Engine,
    beside: &dyn Engine,
    lacks: &[&str],
    word: &str,
) -> Result<Vec<(&'static str, Vec<Best>)>, String> {
    let by_count: Vec<_> = NODE_COUNTS.iter().map(|&n| rows(n)).collect();
    let mut times = Vec::new();
    let timed = |row: &Row| row.name.contains(word) && !lacks.iter().any(|call| row.name.starts_with(call));
    for (at, first) in by_count[0].iter().enumerate().filter(|(_, row)| timed(row)) {
        let bests: Result<Vec<Best>, String> =
            by_count.iter().map(|rows| measure::row(core, beside, &rows[at])).collect();
        times.push((first.name, bests?));
    }
    Ok(times)
}

fn bench(core: &dyn Engine, beside: &dyn Engine, called: &str, lacks: &[&str], word: &str) -> Result<(), String> {
    let times = times(core, beside, lacks, word)?;
    heading(&format!("core / {called}, below 1 is faster"), &node_counts());
    for (name, bests) in &times {
        line(name, &bests.iter().map(Best::ratio).collect::<Vec<_>>());
    }
    if "records".contains(word) {
        // The record of a notice came with its call.
        let kinds = if lacks.contains(&"notice") { 5 } else { 6 };
        line("1,000 records written", &[measure::write(core, beside, kinds)?.ratio()]);
        line("1,000 records read", &[measure::read(core, beside, kinds)?.ratio()]);
    }

    let steps = NODE_COUNTS.windows(2).map(|pair| format!("{} to {}", pair[0], pair[1])).collect::<Vec<_>>();
    heading("growth of the core's time, n from", &steps);
    let sizes: Vec<f64> = NODE_COUNTS.iter().map(|&n| Safe.size(n) as f64).collect();
    line("(bytes of the state)", &sizes.windows(2).map(|pair| pair[1] / pair[0]).collect::<Vec<_>>());
    for (name, bests) in &times {
        line(name, &bests.windows(2).map(|pair| pair[1].core / pair[0].core).collect::<Vec<_>>());
    }

    let both = NODE_COUNTS.iter().flat_map(|n| [format!("core {n}"), format!("{called} {n}")]).collect::<Vec<_>>();
    heading("check / plain pass over its bytes", &both);
    for (at, first) in checks(NODE_COUNTS[0]).iter().enumerate().filter(|(_, row)| row.name.contains(word)) {
        let states = NODE_COUNTS.map(|n| checks(n).swap_remove(at).state);
        let passes = states.iter().flat_map(|state| [core, beside].map(|engine| measure::plain_passes(engine, state)));
        line(first.name, &passes.collect::<Vec<_>>());
    }
    Ok(())
}

fn main() -> ExitCode {
    let (beside, called) = before().map_or((&Safe as &dyn Engine, "safe Rust"), |before| (before, "before"));
    // Timed against itself the ratios are 1: that tells how far the others can be trusted.
    let (flags, words): (Vec<String>, Vec<String>) = std::env::args().skip(1).partition(|word| word == "--itself");
    let core = if flags.is_empty() { core() } else { Some(beside) };
    let word = words.first().map_or("", String::as_str);
    let Some(core) = core else {
        eprintln!("built without the archive: there is no core to time (make archive writes it)");
        return ExitCode::from(2);
    };
    println!("One process, turn and turn about, best of many; every answer and byte was equal first.");
    // An older core may lack calls; the safe implementation has all.
    let lacks = if before().is_some() { before_lacks() } else { Vec::new() };
    for call in &lacks {
        println!("The older core has no {call}, which is not timed.");
    }
    // Neither may be seen through: a call is a call for both.
    match bench(black_box(core), black_box(beside), called, &lacks, word) {
        Ok(()) => ExitCode::SUCCESS,
        Err(what) => {
            eprintln!("{what}");
            ExitCode::FAILURE
        }
    }
}
