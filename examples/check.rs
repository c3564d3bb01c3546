//! Four checks from Rust. README.md has the command that builds and runs this.

use leukarion::Answer;

/// x = 540; assert x - 600 < 0, with a certificate; the same with 660 for 540, with a trace. Their
/// statements have no lines; those of the third, with 599, are at lines 12 and 13 of some text. A
/// constant takes two words: -1, 999400 is -600.
const PLAN_A: [i32; 25] = [
    2, 1, 1, 15, 2, 4, 6, 0, 6, 12, 0, 2, 0, 0, 540, 0, 0, 3, 1, -1, 999400, 1, 1, 0, 0,
];
const PLAN_B: [i32; 25] = [
    2, 1, 1, 15, 2, 4, 6, 0, 6, 12, 0, 2, 0, 0, 660, 0, 0, 3, 1, -1, 999400, 1, 1, 0, 0,
];
const PLAN_WITH_LINES: [i32; 25] = [
    2, 1, 1, 15, 2, 4, 6, 0, 6, 12, 12, 2, 0, 0, 599, 0, 13, 3, 1, -1, 999400, 1, 1, 0, 0,
];
const CERTIFICATE: [i32; 25] = [
    1, 6, 8, 1, 1, 1, 1, 0, 1, 0, 0, 0, 1, -1, 999460, 0, 1, 1, 1, 1, 1, 0, 1, 1, 1,
];
const TRACE: [i32; 7] = [3, 2, 0, 0, 1, 2, 0];

fn main() {
    check("plan A", &PLAN_A, &CERTIFICATE);
    check("plan B with a trace", &PLAN_B, &TRACE);
    check("plan B with A's certificate", &PLAN_B, &CERTIFICATE);
    check("the plan with lines", &PLAN_WITH_LINES, &TRACE);
}

fn check(name: &str, program: &[i32], witness: &[i32]) {
    let checked = leukarion::check(program, witness);
    match checked.answer {
        Answer::Safe(count) => println!("{name}: safe, {count} entailments"),
        Answer::Trace(steps) => println!(
            "{name}: trace of {steps} steps to the values{}",
            list(checked.values())
        ),
        Answer::Refused {
            number,
            place,
            line,
        } => {
            let line = match line {
                0 => String::new(),
                _ => format!(", line {line}"),
            };
            let words = list(checked.diagnosis);
            println!("{name}: refused by test {number} at {place}{line}, words{words}");
        }
    }
}

/// The numbers, a blank before each.
fn list(numbers: impl IntoIterator<Item = impl ToString>) -> String {
    let numbers = numbers.into_iter();
    numbers
        .map(|number| format!(" {}", number.to_string()))
        .collect()
}
