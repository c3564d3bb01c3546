//! Prints generated inputs with the second checker's answers, one a line:
//! `inputs certificates|splits|sparse|traces SEED AMOUNT`. The parts of a line are program words, witness
//! input, result buffer, answer and result buffer afterwards.

use compare::checker::check;
use compare::generate::{certificate_inputs, sparse_inputs, split_inputs, trace_inputs, Input};
use std::io::{self, BufWriter, Write};

fn main() -> io::Result<()> {
    let arguments: Vec<String> = std::env::args().skip(1).collect();
    let number = |at: usize| arguments.get(at).and_then(|text| text.parse().ok());
    let (seed, amount) = (number(1).unwrap_or(1), number(2).unwrap_or(100) as usize);
    let inputs: Box<dyn Iterator<Item = Input>> = match arguments.first().map(String::as_str) {
        Some("splits") => Box::new(split_inputs(seed)),
        Some("sparse") => Box::new(sparse_inputs(seed)),
        Some("traces") => Box::new(trace_inputs(seed)),
        _ => Box::new(certificate_inputs(seed)),
    };
    let mut out = BufWriter::new(io::stdout().lock());
    for mut input in inputs.take(amount) {
        let before = list(&input.buffer);
        let answer = check(&input.program, &input.witness, &mut input.buffer);
        let (program, witness) = (list(&input.program), list(&input.witness));
        let after = list(&input.buffer);
        writeln!(out, "{program} ; {witness} ; {before} ; {answer} ; {after}")?;
    }
    out.flush()
}

fn list<T: ToString>(numbers: &[T]) -> String {
    let texts: Vec<String> = numbers.iter().map(T::to_string).collect();
    texts.join(" ")
}
