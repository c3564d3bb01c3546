//! Times the proved checker, the second checker, the replays by the grammar, the converters and the trimmers
//! of both and the program, and prints tables: `benchmark TABLE..` those that are named, and without a name
//! all of them.

use compare::benchmark::{checks, forms, grammar, program, trimming};
use std::{env, io, process};

const TABLES: [&str; 7] = [
    "certificates",
    "forms",
    "converters",
    "trimming",
    "traces",
    "grammar",
    "program",
];

fn main() -> io::Result<()> {
    let named: Vec<String> = env::args().skip(1).collect();
    if !named.iter().all(|name| TABLES.contains(&name.as_str())) {
        eprintln!("usage: benchmark TABLE.. (of {})", TABLES.join(", "));
        process::exit(2);
    }
    for table in TABLES {
        if named.is_empty() || named.iter().any(|name| name == table) {
            print(table)?;
            println!();
        }
    }
    Ok(())
}

fn print(table: &str) -> io::Result<()> {
    match table {
        "certificates" => checks::certificates(),
        "forms" => forms::both_forms(),
        "converters" => forms::converters(),
        "trimming" => trimming::trimmers(),
        "traces" => checks::traces(),
        "grammar" => grammar::replays(),
        _ => program::runs()?,
    }
    Ok(())
}
