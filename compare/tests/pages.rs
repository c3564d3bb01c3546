//! The worked examples of README.md, CERTIFICATES.md and ARCHITECTURE.md, read from the pages
//! themselves: their words, the places of these, their sums and their answers.

mod common;

use common::{
    assert_answer, named, words, CERTIFICATE_A, CERTIFICATE_C, PROGRAM_A, PROGRAM_C, TRACE_B,
};
use compare::checker::witness_layout;
use compare::convert::to_sparse;
use compare::files::{in_repository, read_words, PROGRAM, WITNESS};
use compare::proved::converters;
use std::fs;

fn page(path: &str) -> String {
    fs::read_to_string(in_repository(path)).expect("a page")
}

/// What a page has under a heading, up to the next one of that rank.
fn section<'a>(page: &'a str, heading: &str) -> &'a str {
    let (_, text) = page.split_once(&format!("\n{heading}\n")).expect(heading);
    let rank = heading.split(' ').next().expect("a rank");
    let end = text.find(&format!("\n{rank} "));
    &text[..end.unwrap_or(text.len())]
}

/// The rows of each table, by its head.
struct Table<'a> {
    head: &'a str,
    rows: Vec<Vec<&'a str>>,
}

fn tables(text: &str) -> Vec<Table<'_>> {
    let mut tables: Vec<Table> = Vec::new();
    let mut inside = false;
    for line in text.lines() {
        let row = line
            .strip_prefix("| ")
            .and_then(|row| row.strip_suffix(" |"));
        match row {
            Some(head) if !inside => {
                let rows = Vec::new();
                tables.push(Table { head, rows });
                inside = true;
            }
            Some(row) => {
                let table = tables.last_mut().expect("a head");
                table.rows.push(row.split(" | ").collect());
            }
            None => inside = line.starts_with('|'),
        }
    }
    tables
}

/// The table with this head.
fn table<'a>(text: &'a str, head: &str) -> Vec<Vec<&'a str>> {
    let found = tables(text).into_iter().find(|table| table.head == head);
    found.unwrap_or_else(|| panic!("a table {head}")).rows
}

/// What stands between backticks, each with what stands before it.
fn spans(text: &str) -> Vec<(&str, &str)> {
    let parts: Vec<&str> = text.split('`').collect();
    parts
        .chunks_exact(2)
        .map(|pair| (pair[0], pair[1]))
        .collect()
}

/// The words of a cell.
fn told(cell: &str) -> Vec<i32> {
    let spans = spans(cell).into_iter();
    spans.flat_map(|(_, span)| words(span)).collect()
}

fn number(text: &str) -> i64 {
    as_number(text).unwrap_or_else(|| panic!("{text} is a number"))
}

fn as_number(text: &str) -> Option<i64> {
    text.replace(',', "").replace('−', "-").parse().ok()
}

/// The numbers of a text, without those inside names.
fn numbers(text: &str) -> Vec<i64> {
    let ends = |sign: char| ".,:;()`".contains(sign);
    text.split_whitespace()
        .filter_map(|word| as_number(word.trim_matches(ends)))
        .collect()
}

/// The rows of a table go on with the words; each has the place of its first one.
fn lay_out(words: &mut Vec<i32>, rows: &[Vec<&str>], cell: usize) {
    for row in rows {
        assert_eq!(number(row[0]), words.len() as i64, "{row:?}");
        words.extend(told(row[cell]));
    }
}

/// The places at which the witnesses of a certificate begin.
fn witness_places(program: &[i32], certificate: &[i32]) -> Vec<i64> {
    let layout = witness_layout(program, certificate).expect("witnesses");
    layout.iter().map(|one| one.words().start as i64).collect()
}

/// The words of a certificate with what a cell says of them changed.
fn changed(certificate: &[i32], change: &str) -> Vec<i32> {
    let mut words = certificate.to_vec();
    let (body, count) = match change.split_once(", and W = ") {
        Some((body, count)) => (body, Some(number(count) as i32)),
        None => (change, None),
    };
    let body = body.split(": ").next().expect("a change").replace('`', "");
    let places: Vec<usize> = numbers(&body).iter().map(|place| *place as usize).collect();
    if body == "the last word left out" {
        words.pop();
    } else if body == "a word more at the end" {
        words.push(0);
    } else if body.starts_with("the word at ") && body.ends_with(" left out") {
        words.remove(places[0]);
    } else if body.contains(" exchanged with those from ") {
        let [first, end, second, last] = places[..] else {
            panic!("two parts: {change}");
        };
        assert_eq!(second, end + 1, "{change}");
        words[first..=last].rotate_left(second - first);
    } else if let Some((new, range)) = body.split_once(" for the words from ") {
        let [first, last] = numbers(range)[..] else {
            panic!("a part: {change}");
        };
        let new = numbers(new).into_iter().map(|word| word as i32);
        words.splice(first as usize..=last as usize, new);
    } else {
        replace(&mut words, body.split(", ").next().expect("a change"));
    }
    if let Some(count) = count {
        words[2] = count;
    }
    words
}

/// "new for old at place", or "new at place", and more of these; of several words the last may have
/// its place too.
fn replace(words: &mut [i32], change: &str) {
    let mut tokens = change.split(' ').peekable();
    let mut last = None;
    loop {
        let mut run = || {
            let mut run: Vec<i32> = Vec::new();
            while let Some(word) = tokens.peek().and_then(|token| token.parse().ok()) {
                run.push(word);
                tokens.next();
            }
            (run, tokens.next())
        };
        let (new, mut mark) = run();
        if mark.is_none() {
            assert_eq!(last, new.first().copied(), "{change}");
            return;
        }
        let mut old = None;
        if mark == Some("for") {
            let (run, at) = run();
            (old, mark) = (Some(run), at);
        }
        assert_eq!(mark, Some("at"), "{change}");
        let place = tokens.next().and_then(|token| token.parse().ok());
        let place: usize = place.unwrap_or_else(|| panic!("a place: {change}"));
        let part = &mut words[place..place + new.len()];
        if let Some(old) = old {
            assert_eq!(part, old, "{change}");
        }
        part.copy_from_slice(&new);
        last = Some((place + new.len() - 1) as i32);
        match tokens.next() {
            None => return,
            mark => assert_eq!(mark, Some("and"), "{change}"),
        }
    }
}

/// Each change of the table, tried by both checkers.
fn try_faults(section: &str, program: &[i32], certificate: &[i32]) -> usize {
    let faults = table(section, "change | answer | why");
    for fault in &faults {
        let certificate = changed(certificate, fault[0]);
        let answers = spans(fault[1]);
        assert_answer(fault[0], program, &certificate, answers[0].1);
    }
    faults.len()
}

/// What a section says a sum comes to.
fn sum_told(section: &str, before: &str, after: &str) -> usize {
    let (_, text) = section.split_once(before).expect(before);
    let (sum, _) = text.split_once(after).expect(after);
    number(sum.rsplit(' ').next().expect("a sum")) as usize
}

/// That a section says of how many words a certificate is, and where its witnesses begin.
fn assert_certificate_sizes(section: &str, certificate: &[i32], head: usize) {
    let words = sum_told(section, "`plan.wit` has ", " words");
    assert_eq!(words, certificate.len());
    let first = sum_told(section, "The first witness word is at ", ". ");
    assert_eq!(first, head);
}

/// That a section says of how many words its two files are, and where the witnesses begin.
fn assert_sizes(section: &str, program: &[i32], certificate: &[i32], head: usize) {
    let words = sum_told(section, "`plan.lin` has ", " words");
    assert_eq!(words, program.len());
    assert_certificate_sizes(section, certificate, head);
}

/// README.md: plan A and its certificate, word by word.
#[test]
fn plan_a() {
    let page = page("README.md");
    let all = tables(&page).into_iter();
    let of_words: Vec<Table> = all
        .filter(|table| table.head == "words | what they are")
        .collect();
    let told: Vec<Vec<i32>> = of_words
        .iter()
        .map(|table| table.rows.iter().flat_map(|row| told(row[0])).collect())
        .collect();
    assert_eq!(told, [words(PROGRAM_A), words(CERTIFICATE_A)]);
    assert_answer("plan A", &told[0], &told[1], "safe 5");
    assert!(page.contains(&format!("< 0`, is {} words:", told[0].len())));
    assert!(page.contains(&format!("Plan A's is {} words:", told[1].len())));
    let trace = spans(&page).into_iter();
    let trace = trace.filter(|(before, _)| before.ends_with("has the trace "));
    let traces: Vec<Vec<i32>> = trace.map(|(_, span)| words(span)).collect();
    assert_eq!(traces, [words(TRACE_B)]);
}

/// The head of a table of witnesses.
const WITNESSES: &str = "place | entailment | premises | target, its rows as rewritten | words";

/// The words of a worked example that stand before its witnesses: its program, and the certificate
/// so far.
fn up_to_witnesses(section: &str) -> (Vec<i32>, Vec<i32>) {
    let rows = table(section, "words | what they are");
    let program = rows.iter().flat_map(|row| told(row[0])).collect();
    let mut certificate = Vec::new();
    let rows = table(section, "place | words | what they are");
    lay_out(&mut certificate, &rows, 1);
    (program, certificate)
}

/// What a worked example says of its words, whose first witness is word `head`: sizes, places of
/// the witnesses, the answer, and so many faults with theirs.
fn assert_worked(
    section: &str,
    (program, certificate, head): (&[i32], &[i32], usize),
    witnesses: &[Vec<&str>],
    (answer, faults): (&str, usize),
) {
    assert_sizes(section, program, certificate, head);
    let places: Vec<i64> = witnesses.iter().map(|row| number(row[0])).collect();
    assert_eq!(witness_places(program, certificate), places);
    assert!(section.contains(&format!("The answer is `{answer}`.")));
    assert_answer("a worked example", program, certificate, answer);
    assert_eq!(try_faults(section, program, certificate), faults);
}

/// CERTIFICATES.md, "A worked call".
#[test]
fn a_worked_call() {
    let page = page("docs/CERTIFICATES.md");
    let section = section(&page, "## A worked call");
    let (program, mut certificate) = up_to_witnesses(section);
    let head = certificate.len();
    let witnesses = table(section, &format!("{WITNESSES} | why it works"));
    lay_out(&mut certificate, &witnesses, 4);
    let all = (&program[..], &certificate[..], head);
    assert_worked(section, all, &witnesses, ("safe 10", 10));
}

/// CERTIFICATES.md, "A split, worked out", whose files are those of `plans/price-bands`.
#[test]
fn a_split_worked_out() {
    let page = page("docs/CERTIFICATES.md");
    let section = section(&page, "## A split, worked out");
    let (program, mut certificate) = up_to_witnesses(section);
    let head = certificate.len();
    let witnesses = table(section, WITNESSES);
    for row in &witnesses {
        let count = certificate.len() as i64;
        lay_out(&mut certificate, std::slice::from_ref(row), 4);
        if let Some(said) = row[4].strip_suffix(" words, see below") {
            let split = table(section, "place | words | what they are | why it works");
            lay_out(&mut certificate, &split, 1);
            assert_eq!(certificate.len() as i64 - count, number(said));
        }
    }
    let folder = in_repository("plans/price-bands");
    assert_eq!(program, read_words(&folder.join(PROGRAM)));
    assert_eq!(certificate, read_words(&folder.join(WITNESS)));
    let all = (&program[..], &certificate[..], head);
    assert_worked(section, all, &witnesses, ("safe 13", 9));
}

/// CERTIFICATES.md, "Sparse rows": the certificate of `plans/price-bands` with sparse rows.
#[test]
fn sparse_rows() {
    let page = page("docs/CERTIFICATES.md");
    let section = section(&page, "## Sparse rows");
    let folder = in_repository("plans/price-bands");
    let [program, dense] = [PROGRAM, WITNESS].map(|file| read_words(&folder.join(file)));
    let mut certificate = Vec::new();
    let rows = table(section, "place | words | what they are");
    lay_out(&mut certificate, &rows, 1);
    let head = certificate.len();
    let before = witness_places(&program, &dense)[0] as usize;
    certificate.extend(&dense[before..]);
    assert_eq!(witness_places(&program, &certificate)[0], head as i64);
    assert_certificate_sizes(section, &certificate, head);
    let fewer = before - head;
    assert!(section.contains(&format!(" words, {fewer} fewer than dense:")));
    assert!(section.contains(&format!("each {fewer} places earlier")));

    for converter in converters() {
        let mut result = vec![0; certificate.len()];
        let answer = converter.to_sparse(&program, &dense, &mut result);
        assert_eq!(answer.to_string(), format!("written {}", certificate.len()));
        assert_eq!(result, certificate);
    }
    let (_, split) = section.split_once("and its row, ").expect("a split");
    let (split, _) = split.split_once(", has all").expect("a place");
    let row = words(spans(split)[0].1);
    let at = places_told(split)[0] as usize;
    assert_eq!(certificate[at - 1], -1);
    assert_eq!(certificate[at..][..row.len()], row);

    assert!(section.contains("The answer is `safe 13`."));
    assert_answer("sparse rows", &program, &certificate, "safe 13");
    assert_eq!(try_faults(section, &program, &certificate), 11);
}

/// CERTIFICATES.md: how many words a row has in each form, and plan A's certificate.
#[test]
fn sizes_of_rows() {
    let page = page("docs/CERTIFICATES.md");
    let rows = table(&page, "columns | listed | dense | sparse");
    assert_eq!(rows.len(), 6);
    for row in rows {
        let cells: Vec<i64> = row.into_iter().map(number).collect();
        assert_eq!(cells[2..], [2 + cells[0], 3 + 2 * cells[1]]);
    }
    let [dense, sparse] =
        [CERTIFICATE_A, named("certificate A-sparse")].map(|text| words(text).len());
    let said = format!("plan A's certificate has {dense} words dense and {sparse} sparse");
    assert!(page.contains(&said), "{said}");
}

/// README.md: plan A's certificate with sparse rows, and how many words the certificates of the plans
/// have in each form.
#[test]
fn sparse_plans() {
    let page = page("README.md");
    let (_, text) = page
        .split_once("All else is as in a *dense* one")
        .expect("it");
    let (_, text) = text.split_once("Plan A's is ").expect("its words");
    let (text, _) = text.split_once(", and the witness words").expect("an end");
    let sparse = words(named("certificate A-sparse"));
    assert_eq!(told(text), sparse[..20]);

    let rows = table(&page, "certificate | words, dense | words, sparse");
    for row in &rows {
        let folder = in_repository(row[0].trim_matches('`'));
        let [program, dense] = [PROGRAM, WITNESS].map(|file| read_words(&folder.join(file)));
        let mut result = vec![0; 10_000];
        let answer = to_sparse(&program, &dense, &mut result).to_string();
        let said = [row[1].to_string(), format!("written {}", row[2])];
        assert_eq!(said, [dense.len().to_string(), answer], "{}", row[0]);
    }
    assert_eq!(rows.len(), 6);
    let said = page.split_once("    ./convert-plan plans/price-bands sparse\n");
    let said = said
        .expect("a command")
        .1
        .split_once("and prints ")
        .expect("a line");
    assert_eq!(spans(said.1)[0].1, "written 110");
}

/// CERTIFICATES.md: the row x now ≤ 3 as sparse words, which is all that an entry of program G has.
#[test]
fn a_sparse_row() {
    let page = page("docs/CERTIFICATES.md");
    let (_, text) = page.split_once("x now ≤ 3 is ").expect("it");
    let row = words(spans(text)[0].1);
    let count = 1 + row.len() as i32;
    let certificate = [&[4, count, 0, 1, 0, 0, 0, count, count, 1], &row[..]].concat();
    let answer = format!("refused 6 {} 0", certificate.len());
    assert_answer("a row", &words(named("program G")), &certificate, &answer);
}

/// CERTIFICATES.md, "A procedure that calls itself": the witnesses of its table stand in the
/// certificate.
#[test]
fn a_procedure_that_calls_itself() {
    let page = page("docs/CERTIFICATES.md");
    let section = section(&page, "## A procedure that calls itself");
    let behind = |before: &str| {
        let mut spans = spans(section).into_iter();
        let found = spans.find(|(text, _)| text.ends_with(before));
        words(found.expect(before).1)
    };
    let (program, certificate) = (behind("Program "), behind(", certificate "));
    let layout = witness_layout(&program, &certificate).expect("witnesses");
    let head = "place | entailment | premises | target's row as rewritten | words";
    let rows = table(section, head);
    assert_eq!(rows.len(), 8);
    for row in rows {
        let (place, words) = (number(row[0]) as usize, told(row[4]));
        let range = place..place + words.len();
        assert!(layout.iter().any(|one| one.words() == range), "{row:?}");
        assert_eq!(certificate[range], words, "{row:?}");
    }
    let places = witness_places(&program, &certificate);
    let exit = places.last().expect("f's exit");
    assert!(section.contains(&format!("f's own exit, at {exit}, has to show")));
}

/// "Program `..`, certificate `..`: answer `..`", also with a trace; "With trace `..`" has the
/// program before it, as has a table of traces.
#[test]
fn answers_in_sentences() {
    for (path, sentences, rows) in [
        ("docs/CERTIFICATES.md", 4, 4),
        ("docs/ARCHITECTURE.md", 1, 0),
    ] {
        let page = page(path);
        let (mut program, mut tried, mut tabled) = (Vec::new(), 0, 0);
        let mut of_traces = false;
        for line in page.lines() {
            of_traces = line.starts_with('|') && (of_traces || line == "| trace | answer | why |");
            if of_traces && line.starts_with("| `") {
                let cells: Vec<&str> = line[2..].split(" | ").collect();
                let answers = spans(cells[1]);
                assert_answer(line, &program, &told(cells[0]), answers[0].1);
                tabled += 1;
                continue;
            }
            let spans = spans(line);
            for (at, (before, span)) in spans.iter().enumerate() {
                if before.ends_with("Program ") {
                    program = words(span);
                }
                let is_witness = [" certificate ", " trace "].map(|end| before.ends_with(end));
                if let Some((": answer ", answer)) = spans.get(at + 1) {
                    assert!(is_witness.contains(&true), "{span}");
                    assert_answer(span, &program, &words(span), answer);
                    tried += 1;
                }
            }
        }
        assert_eq!((tried, tabled), (sentences, rows), "{path}");
    }
}

/// CERTIFICATES.md: the two disjuncts that are told as words are an entry of program G, all of whose
/// row words they take, so that only the witnesses are missing.
#[test]
fn two_disjuncts() {
    let page = page("docs/CERTIFICATES.md");
    let (_, text) = page.split_once("For two disjuncts, ").expect("them");
    let disjuncts = words(spans(text)[0].1);
    let count = disjuncts.len() as i32;
    let certificate = [&[1, count, 0, 2, 0, 0, 0, 0, 0], &disjuncts[..]].concat();
    let program = words(named("program G"));
    let answer = format!("refused 6 {} 0", certificate.len());
    assert_answer("two disjuncts", &program, &certificate, &answer);
    assert_eq!([disjuncts[0], disjuncts[5]], [1, 1]);
}

/// CERTIFICATES.md: the two words of a constant.
#[test]
fn spellings() {
    let page = page("docs/CERTIFICATES.md");
    let rows = table(&page, "constant | high word | low word");
    assert_eq!(rows.len(), 9);
    for row in rows {
        let (constant, high, low) = (number(row[0]), number(row[1]), number(row[2]));
        assert_eq!(high, constant.div_euclid(1_000_000), "{constant}");
        assert_eq!(low, constant.rem_euclid(1_000_000), "{constant}");
    }
}

/// Sums of plain numbers come to what stands behind their `=`.
#[test]
fn sums() {
    let mut tried = 0;
    for path in [
        "README.md",
        "docs/CERTIFICATES.md",
        "docs/ARCHITECTURE.md",
        "docs/DECISIONS.md",
    ] {
        let page = page(path);
        let tokens: Vec<&str> = page.split_whitespace().collect();
        for at in (0..tokens.len()).filter(|at| tokens[*at] == "=") {
            let is_part = |token: &&&str| as_number(token).is_some() || is_sign(token);
            let before = tokens[..at].iter().rev();
            let length = before.take_while(is_part).count();
            let sum = &tokens[at - length..at];
            let end = tokens[at + 1].trim_end_matches(['.', ',', ';', ':', ')', '?']);
            let Some(said) = as_number(end) else {
                continue;
            };
            if length > 1 && !is_sign(sum[0]) && !tokens[at + 2..].starts_with(&["×"]) {
                assert_eq!(value(sum), said, "{path}: {}", sum.join(" "));
                tried += 1;
            }
        }
    }
    assert!(tried >= 20, "{tried}");
}

fn is_sign(token: &str) -> bool {
    ["+", "-", "−", "×"].contains(&token)
}

/// The value of numbers with signs between them, products first.
fn value(sum: &[&str]) -> i64 {
    let (mut total, mut product) = (0, number(sum[0]));
    for pair in sum[1..].chunks_exact(2) {
        let next = number(pair[1]);
        if pair[0] == "×" {
            product *= next;
        } else {
            total += product;
            product = if pair[0] == "+" { next } else { -next };
        }
    }
    total + product
}

/// The places that a text tells: "at 17", "at 20 and 21".
fn places_told(text: &str) -> Vec<i64> {
    let mut places = Vec::new();
    for part in text.split(" at ").skip(1) {
        let words: Vec<&str> = part.split([' ', ';', ',', '.']).collect();
        places.push(number(words[0]));
        if words.get(1) == Some(&"and") {
            places.extend(as_number(words[2]));
        }
    }
    places
}

/// Where the witnesses of certificates A and C stand, in DECISIONS.md and in D84 of ARCHITECTURE.md.
#[test]
fn places_of_witnesses() {
    let decisions = page("docs/DECISIONS.md");
    let architecture = page("docs/ARCHITECTURE.md");
    let a = [PROGRAM_A, CERTIFICATE_A];
    for (page, before, [program, certificate]) in [
        (&decisions, "Its witnesses: start `1`", a),
        (&decisions, "Witnesses: start", [PROGRAM_C, CERTIFICATE_C]),
        (&architecture, "\nCertificate A: the start", a),
    ] {
        let (_, said) = page.split_once(before).expect(before);
        let (said, _) = said.split_once(".").expect("a sentence");
        let places = witness_places(&words(program), &words(certificate));
        assert_eq!(places_told(said), places, "{before}");
    }
}

/// ARCHITECTURE.md, D85: how the last word of certificate A is read.
#[test]
fn the_last_word_of_certificate_a() {
    let page = page("docs/ARCHITECTURE.md");
    let certificate = words(CERTIFICATE_A);
    let end = certificate.len();
    let (last, word, beyond) = (end - 1, certificate[end - 1], end + 1);
    let reading = format!(
        "\nReading certificate A at {last}: the reader gives the word `{word}` and stands at {end}; \
         read again, it says that none is left and stays at {end} (other reading: moves on to \
         {beyond}). The cursor's read at {last} and at {end} gives the same. One multiplier read at \
         {last} is there, and the reader stands at {end}; two aren't, and it stays at {last} "
    );
    assert!(page.contains(&reading), "{reading}");
}

/// ARCHITECTURE.md, D113: plan A's five entailments as values, from the words.
#[test]
fn entailments_of_plan_a() {
    let page = page("docs/ARCHITECTURE.md");
    let head = "entailment | shape | columns | from, n | added | image | place, count, width";
    let told = table(&page, head);
    let (program, certificate) = (words(PROGRAM_A), words(CERTIFICATE_A));
    let pool = 4 + 2 * 3;
    let row = |vertex: usize| pool + program[3 + 3 + vertex] as usize;
    let expression = |vertex: usize| row(vertex) + 3;
    let (column, op) = (program[row(1) + 2], program[row(2) + 2]);
    assert_eq!(program[expression(1)..][..3], [0, 540, 0]);
    assert_eq!(program[expression(2)..][..3], [-1, 999_400, 1]);
    let place = |entry: usize| certificate[2 + 4 + entry] as usize;
    let rows_of = |entry: usize| certificate[3 + 2 * 4 + place(entry)];
    let from = |entry: usize| format!("{}, {}", place(entry) + 1, rows_of(entry));
    let target = |entry: usize| format!("{}, {}, 2", place(entry), certificate[2 + entry]);
    // x < 0 where the assertion holds, and x ≥ 0 where it fails
    let guard = |op: i32| format!("Guard({op}, 0, {})", expression(2));
    assert_eq!(op, 1);
    let assign = format!("Assign({column}, {})", expression(1));
    let nothing = || "Nothing".to_string();
    let wanted = [
        (
            "0, 1, 0, 0",
            "1",
            "0, 0".into(),
            nothing(),
            "Start",
            target(1),
        ),
        ("1, 1, 0, 0", "2", from(1), nothing(), &assign, target(2)),
        ("1, 1, 0, 0", "2", from(2), guard(1), "Path", target(3)),
        (
            "1, 1, 0, 0",
            "2",
            from(2),
            guard(4),
            "Path",
            "any, 0, 2".into(),
        ),
        ("1, 1, 0, 0", "2", from(3), nothing(), "Exit", target(4)),
    ];
    assert_eq!(told.len(), wanted.len());
    for (told, (shape, columns, from, added, image, target)) in told.iter().zip(&wanted) {
        let wanted = [*shape, *columns, from, added, *image, target];
        assert_eq!(told[1..], wanted, "{}", told[0]);
    }
    let said = format!("(op 4 of the expression at {})", expression(2));
    assert!(page.contains(&said), "{said}");
}

/// ARCHITECTURE.md, D130: the split is the words that are told, at the place that is told.
#[test]
fn a_split_followed() {
    let page = page("docs/ARCHITECTURE.md");
    let text = section(&page, "### D130. The recursive judge");
    let spans = spans(text);
    let behind = |before: &str| {
        let found = spans.iter().position(|(text, _)| text.ends_with(before));
        found.unwrap_or_else(|| panic!("{before}"))
    };
    let certificate = words(spans[behind(", certificate ")].1);
    let at = behind("the witness ");
    let witness = words(spans[at].1);
    let place = numbers(spans[at + 1].0)[0] as usize;
    assert_eq!(certificate[place..][..witness.len()], witness);
    let parts = ["reads the row ", "judges the leaf ", "and then "].map(behind);
    let parts = parts.map(|part| words(spans[part].1));
    assert_eq!([vec![-1], parts.concat()].concat(), witness);
}
