//! The program from its start to its end.

use super::shapes::{random, wide};
use crate::checker::Answer;
use crate::files::{self, bytes, Folder, LONGEST};
use crate::generate::large::{self, Multipliers};
use crate::generate::Pair;
use crate::plans;
use std::io;
use std::path::Path;
use std::process::Command;
use std::time::{Duration, Instant};

/// Runs of the program in each folder.
const RUNS: usize = 300;

pub fn runs() -> io::Result<()> {
    println!("| files | plan.lin, bytes | plan.wit, bytes | line | best, ms | median, ms |");
    println!("|---|--:|--:|---|--:|--:|");
    program_row("/bin/true", Path::new("/bin/true"), &empty())?;
    for (name, pair) in program_pairs() {
        program_row(name, &files::program(), &pair)?;
    }
    Ok(())
}

fn empty() -> Pair {
    Pair {
        program: Vec::new(),
        witness: Vec::new(),
    }
}

/// Pairs for the program. No program has more than 56,464 bytes, and no trace without entry values
/// more than 16,464.
fn program_pairs() -> Vec<(&'static str, Pair)> {
    let mut limits = large::sized(1_024, 32, 8, 8, 12_000);
    large::fill(&mut limits, LONGEST / 4);
    let (mut entailments, _) = large::all_calls(2, 31);
    large::fill(&mut entailments, LONGEST / 4);
    let (mut dense, _) = large::circle(&mut random(), &wide(1, Multipliers::Dense));
    large::fill(&mut dense, LONGEST / 4);
    let too_long = Pair {
        program: vec![0; LONGEST / 4],
        witness: vec![0; LONGEST / 4],
    };
    let mut pairs = vec![("none", empty())];
    let plans = plans::plans().into_iter();
    pairs.extend(plans.filter(|(name, _)| ["plan-a", "plan-b"].contains(name)));
    for trace in large::traces(&mut random()) {
        if let Answer::Trace(_) = trace.answer {
            let (program, witness) = (trace.input.program, trace.input.witness);
            pairs.push((trace.name, Pair { program, witness }));
        }
    }
    pairs.extend([
        ("the longest program", limits),
        ("the most entailments", entailments),
        ("wide rows, dense multipliers", dense),
        ("zeros, both of the most bytes", too_long),
    ]);
    pairs
}

/// Times a program from its start to its end in a folder with these files.
fn program_row(name: &str, program: &Path, pair: &Pair) -> io::Result<()> {
    let (lin, wit) = (bytes(&pair.program), bytes(&pair.witness));
    let folder = Folder::new()?;
    folder.write(&lin, &wit)?;
    let mut command = Command::new(program);
    let mut line = String::new();
    let mut times = Vec::with_capacity(RUNS);
    for _ in 0..RUNS {
        let start = Instant::now();
        let output = folder.run(&mut command)?;
        times.push(start.elapsed());
        line = String::from_utf8_lossy(&output.stdout)
            .trim_end()
            .to_string();
    }
    times.sort();
    // Of a trace's values the first is enough here.
    let parts: Vec<&str> = line.split_whitespace().take(3).collect();
    let milliseconds = |time: Duration| 1e3 * time.as_secs_f64();
    println!(
        "| {name} | {} | {} | {} | {:.2} | {:.2} |",
        lin.len(),
        wit.len(),
        parts.join(" "),
        milliseconds(times[0]),
        milliseconds(times[RUNS / 2])
    );
    Ok(())
}
