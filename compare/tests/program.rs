//! The program `check_plan`, tried as its user would: what it prints for files of all sorts, and
//! thousands of file pairs on which it, the proved checker behind the C interface and the second
//! checker say the same.

mod common;

use common::{words, CERTIFICATE_A, PROGRAM_A, PROGRAM_B, TRACE_B};
use compare::compare::{inputs, outcome, Counts, Outcome, Second, NUMBERS};
use compare::files::{self, bytes, line, marked_buffer, Folder, LONGEST, PROGRAM, WITNESS};
use compare::generate::large::{self, Circle, Multipliers};
use compare::generate::{Input, Pair};
use compare::proved::Proved;
use compare::random::Random;
use std::fs::{self, File, Permissions};
use std::io::Write;
use std::os::unix::fs::PermissionsExt;
use std::path::PathBuf;
use std::process::{Command, Output, Stdio};
use std::thread;
use std::time::Duration;

/// What the program printed: one line, nothing else, and status 0. On standard error it said of
/// these files, and of no others, that they couldn't be read.
fn printed(output: Output, unread: &[&str]) -> String {
    assert!(output.status.success(), "{output:?}");
    let said = unread
        .iter()
        .map(|name| format!("{name} couldn't be read\n"));
    assert_eq!(output.stderr, said.collect::<String>().as_bytes());
    let text = String::from_utf8(output.stdout).expect("plain text");
    let line = text.strip_suffix('\n').expect("a whole line");
    assert!(!line.contains('\n'), "{text}");
    line.to_string()
}

/// What the program prints in a folder where it can't read these files.
fn run_without(folder: &Folder, unread: &[&str]) -> String {
    let output = folder.run(&mut Command::new(files::program()));
    let output = output.expect("`scripts/build check_plan` has built the program");
    printed(output, unread)
}

/// What the program prints in a folder.
fn run(folder: &Folder) -> String {
    run_without(folder, &[])
}

fn assert_line(program: &[u8], witness: &[u8], expected: &str) {
    let folder = Folder::new().unwrap();
    folder.write(program, witness).unwrap();
    assert_eq!(run(&folder), expected);
}

fn plan_a() -> [Vec<u8>; 2] {
    [bytes(&words(PROGRAM_A)), bytes(&words(CERTIFICATE_A))]
}

/// Program A with kind 7 at its first vertex, which is at line 12; it is refused with 3 before any
/// witness input.
fn kind_seven() -> Vec<u8> {
    let mut program = words(PROGRAM_A);
    (program[4], program[10]) = (7, 12);
    bytes(&program)
}

#[test]
fn safe_trace_and_refused() {
    let [program, certificate] = plan_a();
    assert_line(&program, &certificate, "safe 5");
    let (failing, trace) = (words(PROGRAM_B), words(TRACE_B));
    assert_line(&bytes(&failing), &bytes(&trace), "trace 2 660");
    assert_line(&bytes(&failing), &certificate, "refused 7 18 0");
}

/// Lines at their limits, and 0 where there is none.
#[test]
fn lines_of_refusals() {
    let trace = bytes(&words(TRACE_B));
    for (line, told) in [(0, 0), (1, 1), (1_000_000, 1_000_000)] {
        let mut program = words(PROGRAM_B);
        (program[14], program[16]) = (599, line);
        assert_line(&bytes(&program), &trace, &format!("refused 10 6 {told}"));
        program[18] = 0;
        assert_line(&bytes(&program), &trace, &format!("refused 3 5 {told}"));
    }
    for line in [1_000_001, -1, i32::MIN, i32::MAX] {
        let mut program = words(PROGRAM_B);
        program[16] = line;
        assert_line(&bytes(&program), &trace, "refused 3 5 0");
    }
}

/// A value of each sign, the least and the largest there can be, and no value at all.
#[test]
fn values_of_traces() {
    for (value, sign) in [(1_000_000_000, ""), (-1_000_000_000, "-")] {
        // x = 1000 × x on a parameter x of main, then an assertion that fails either way.
        let program = words("2 1 0 15 | 2 4 6 | 0 6 12 | 0 2 0 0 0 1000 0 3 5 0 0 1 1 1 1");
        let trace = words(&format!("3 2 0 {value} 1 2 0"));
        let expected = format!("trace 2 {sign}1000000000000");
        assert_line(&bytes(&program), &bytes(&trace), &expected);
    }
    // A call whose callee has an other local.
    let program =
        words("2 2 1 20 | 5 4 6 6 | 0 6 14 17 | 0 3 2 0 5 1 0 4 1 -1 999400 1 0 0 1 0 0 2 2 1");
    let trace = words("3 2 1 700 1 2 0 -1000000000");
    let expected = "trace 2 700 705 -1000000000";
    assert_line(&bytes(&program), &bytes(&trace), expected);
    // assert (0 < 0) with no variables.
    let program = words("1 1 0 8 | 4 6 | 0 5 | 0 2 1 0 0 1 0 0");
    assert_line(&bytes(&program), &bytes(&words("3 1 0 1 0")), "trace 1");
}

#[test]
fn absent_files() {
    let [program, certificate] = plan_a();
    let folder = Folder::new().unwrap();
    assert_eq!(run_without(&folder, &[PROGRAM, WITNESS]), "refused 1 0 0");
    fs::write(folder.file(WITNESS), certificate).unwrap();
    assert_eq!(run_without(&folder, &[PROGRAM]), "refused 1 0 0");
    fs::remove_file(folder.file(WITNESS)).unwrap();
    fs::write(folder.file(PROGRAM), program).unwrap();
    assert_eq!(run_without(&folder, &[WITNESS]), "refused 4 0 0");
    fs::write(folder.file(PROGRAM), kind_seven()).unwrap();
    assert_eq!(run_without(&folder, &[WITNESS]), "refused 3 4 12");
}

#[test]
fn empty_files() {
    let [program, certificate] = plan_a();
    assert_line(&[], &[], "refused 1 0 0");
    assert_line(&[], &certificate, "refused 1 0 0");
    assert_line(&program, &[], "refused 4 0 0");
    assert_line(&kind_seven(), &[], "refused 3 4 12");
}

/// Bytes less and more than whole words.
#[test]
fn torn_words() {
    let [program, certificate] = plan_a();
    for more in 1..4 {
        let torn = |whole: &[u8]| [whole, &[0; 3][..more]].concat();
        assert_line(&torn(&program), &certificate, "refused 1 0 0");
        assert_line(&program, &torn(&certificate), "refused 4 0 0");
        assert_line(&kind_seven(), &torn(&certificate), "refused 3 4 12");
        assert_line(&program[more..], &certificate, "refused 1 0 0");
        assert_line(&program, &certificate[more..], "refused 4 0 0");
    }
    assert_line(&program, &certificate[..6], "refused 4 0 0");
}

#[test]
fn folders_in_the_place_of_files() {
    let [program, certificate] = plan_a();
    let folder = Folder::new().unwrap();
    fs::create_dir(folder.file(PROGRAM)).unwrap();
    fs::write(folder.file(WITNESS), certificate).unwrap();
    assert_eq!(run_without(&folder, &[PROGRAM]), "refused 1 0 0");
    fs::remove_dir(folder.file(PROGRAM)).unwrap();
    fs::remove_file(folder.file(WITNESS)).unwrap();
    fs::write(folder.file(PROGRAM), program).unwrap();
    fs::create_dir(folder.file(WITNESS)).unwrap();
    assert_eq!(run_without(&folder, &[WITNESS]), "refused 4 0 0");
}

/// A command for the program by a user whom permissions stop: as nobody where this is root.
/// Nothing where root cannot become nobody here.
fn by_a_user(folder: &Folder) -> Option<Command> {
    let id = Command::new("id").arg("-u").output().expect("id");
    if id.stdout != b"0\n" {
        return Some(Command::new(files::program()));
    }
    let as_nobody = || {
        let mut command = Command::new("setpriv");
        command.args(["--reuid=65534", "--regid=65534", "--clear-groups"]);
        command
    };
    // Nobody may not be able to reach the repository, so it runs a copy.
    let program = folder.file("program");
    fs::copy(files::program(), &program).unwrap();
    let tried = as_nobody().args(["test", "-x"]).arg(&program).status();
    let mut command = as_nobody();
    command.arg(program);
    tried
        .is_ok_and(|status| status.success())
        .then_some(command)
}

#[test]
fn no_permission() {
    let [program, certificate] = plan_a();
    let folder = Folder::new().unwrap();
    folder.write(&program, &certificate).unwrap();
    let Some(mut command) = by_a_user(&folder) else {
        println!("no_permission was not tried: root cannot become nobody here");
        return;
    };
    let mut run = |unread: &[&str]| printed(folder.run(&mut command).unwrap(), unread);
    assert_eq!(run(&[]), "safe 5");
    for (name, expected) in [(PROGRAM, "refused 1 0 0"), (WITNESS, "refused 4 0 0")] {
        fs::set_permissions(folder.file(name), Permissions::from_mode(0o000)).unwrap();
        assert_eq!(run(&[name]), expected);
        fs::set_permissions(folder.file(name), Permissions::from_mode(0o644)).unwrap();
    }
}

/// An accepted pair whose certificate is a file of the most bytes there can be.
fn of_most_bytes() -> Pair {
    let (mut pair, _) = large::all_calls(2, 31);
    large::fill(&mut pair, LONGEST / 4);
    pair
}

#[test]
fn most_bytes_and_one_more() {
    let Pair { program, witness } = of_most_bytes();
    let (program, witness) = (bytes(&program), bytes(&witness));
    assert_eq!(witness.len(), LONGEST);
    assert_line(&program, &witness, "safe 4625");
    for more in [1, 4] {
        let longer = [&witness[..], &vec![0; more]].concat();
        assert_line(&program, &longer, "refused 4 0 0");
    }
    // No program has so many words; of a longer file the first ones are no program either.
    for length in [LONGEST, LONGEST + 1, LONGEST + 4, 1_000_000] {
        let long = [&program[..], &vec![0; length - program.len()]].concat();
        assert_line(&long, &witness, "refused 1 0 0");
    }
    let long = [&plan_a()[1][..], &[0; LONGEST]].concat();
    assert_line(&kind_seven(), &long, "refused 3 4 12");
}

/// Feeds a pipe in pieces, with a pause before each.
fn feed(path: PathBuf, bytes: Vec<u8>, piece: usize) -> thread::JoinHandle<()> {
    thread::spawn(move || {
        let mut pipe = File::options().write(true).open(path).unwrap();
        for part in bytes.chunks(piece) {
            thread::sleep(Duration::from_millis(20));
            pipe.write_all(part).unwrap();
        }
    })
}

/// A read of a pipe gives what is there; the program goes on to the end.
#[test]
fn slow_pipes() {
    let folder = Folder::new().unwrap();
    let paths = [PROGRAM, WITNESS].map(|name| folder.file(name));
    let made = Command::new("mkfifo").args(&paths).status();
    assert!(made.expect("mkfifo").success());
    let [program, certificate] = plan_a();
    let torn = [&certificate[..], &[0]].concat();
    for (witness, expected) in [(certificate, "safe 5"), (torn, "refused 4 0 0")] {
        // Pieces that end inside words.
        let pieces = [(program.clone(), 30), (witness, 33)];
        let fed = paths.iter().zip(pieces);
        let fed: Vec<_> = fed
            .map(|(path, (bytes, piece))| feed(path.clone(), bytes, piece))
            .collect();
        assert_eq!(run(&folder), expected);
        fed.into_iter().for_each(|pipe| pipe.join().unwrap());
    }
}

/// Nobody has to type anything, and arguments change nothing.
#[test]
fn arguments_and_input() {
    let [program, certificate] = plan_a();
    let folder = Folder::new().unwrap();
    folder.write(&program, &certificate).unwrap();
    let mut command = Command::new(files::program());
    command.args(["--help", "elsewhere"]).stdin(Stdio::null());
    assert_eq!(printed(folder.run(&mut command).unwrap(), &[]), "safe 5");
}

/// The pair in files: the program's line, the proved checker's and the second checker's outcome.
fn assert_same(folder: &Folder, counts: &mut Counts, pair: Pair) {
    let input = Input {
        program: pair.program,
        witness: pair.witness,
        buffer: marked_buffer(),
    };
    let expected: Outcome = outcome(&Second, &input);
    assert_eq!(outcome(&Proved, &input), expected, "{input:?}");
    let (program, witness) = (bytes(&input.program), bytes(&input.witness));
    folder.write(&program, &witness).unwrap();
    assert_eq!(run(folder), line(&expected), "{input:?}");
    counts.add(&input.program, &input.witness, expected.0);
}

#[test]
fn generated_file_pairs() {
    let folder = Folder::new().unwrap();
    let mut counts = Counts::default();
    let fitting = |input: &Input| 4 * input.program.len().max(input.witness.len()) <= LONGEST;
    for input in inputs(61).filter(fitting).take(7_400) {
        let (program, witness) = (input.program, input.witness);
        assert_same(&folder, &mut counts, Pair { program, witness });
    }
    println!("program, generated pairs: {counts}");
    assert!(counts.safe >= 20 && counts.trace >= 20);
    // The program's buffer is never too short.
    let numbers = NUMBERS.into_iter().filter(|number| *number != 13);
    assert!(counts.refused.all(numbers, 20));
}

/// Large pairs, and each with one word changed.
#[test]
fn large_file_pairs() {
    let folder = Folder::new().unwrap();
    let random = &mut Random::new(62);
    let mut limits = large::sized(1_024, 32, 8, 8, 12_000);
    large::fill(&mut limits, LONGEST / 4);
    let mut pairs = vec![limits, of_most_bytes()];
    for (globals, locals, skips) in [(1, 1, 3), (8, 8, 1), (0, 8, 2)] {
        let circle = Circle {
            globals,
            locals,
            skips,
            disjuncts: 4,
            rows: 32,
            sharing: compare::build::Sharing::Apart,
            multipliers: Multipliers::Dense,
        };
        pairs.push(large::circle(random, &circle).0);
    }
    let trees = Circle {
        globals: 1,
        locals: 0,
        skips: 1,
        disjuncts: 1,
        rows: 2,
        sharing: compare::build::Sharing::Apart,
        multipliers: Multipliers::Dense,
    };
    pairs.push(large::circle_of_trees(random, &trees).0);
    let traces = [
        large::traces(random),
        large::traces_with_entry_values(random),
    ];
    let traces = traces.into_iter().flatten().map(|large| Pair {
        program: large.input.program,
        witness: large.input.witness,
    });
    pairs.extend(traces.filter(|pair| 4 * pair.witness.len() <= LONGEST));
    let mut counts = Counts::default();
    for pair in pairs {
        assert!(4 * pair.program.len().max(pair.witness.len()) <= LONGEST);
        assert_same(&folder, &mut counts, pair.clone());
        for _ in 0..40 {
            let mut changed = pair.clone();
            let words = match random.chance(30) {
                true => &mut changed.program,
                false => &mut changed.witness,
            };
            let at = random.below(words.len());
            words[at] = random.between(-1_001, 1_001);
            assert_same(&folder, &mut counts, changed);
        }
    }
    println!("program, large pairs: {counts}");
    assert!(counts.safe >= 4 && counts.trace >= 3);
}

/// Plan B's trace with as many entry values as a file has words for, and with one more.
#[test]
fn most_entry_values_and_one_more() {
    let program = bytes(&words(PROGRAM_B));
    for (count, expected) in [(16_377, "refused 14 7 0"), (16_378, "refused 4 0 0")] {
        let mut trace = words(TRACE_B);
        trace[2] = count;
        trace.resize(7 + count as usize, 0);
        let answered = outcome(
            &Second,
            &Input {
                program: words(PROGRAM_B),
                witness: trace.clone(),
                buffer: marked_buffer(),
            },
        );
        assert_eq!(line(&answered), "refused 14 7 0");
        assert_line(&program, &bytes(&trace), expected);
    }
}
