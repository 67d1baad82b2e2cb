//! Compares the built programs and the replay library with the second
//! implementation, byte for byte, on random cases.
//!
//! compare COUNT [SEED [ROOT]]     ROOT is the repository, by default the current folder
//! compare --self COUNT [SEED]     checks the second implementation alone

mod cases;
mod second;
mod self_check;

use cases::Random;
use self_check::Tally;
use std::error::Error;
use std::fs;
use std::io::{ErrorKind, Write};
use std::path::{Path, PathBuf};
use std::process::{Command, ExitCode, Stdio};

type Answer<T> = Result<T, Box<dyn Error>>;

/// What a program prints for an input.
type Text = fn(&[u8]) -> String;

const PROGRAMS: [(&str, Text); 3] = [
    ("curtzano", second::listing),
    ("plain_sweep", second::plain),
    ("show_tiles", second::tiles),
];

/// The greatest product of a file's length and the number of tile calls.
const MOST_REPLAYED_BYTES: usize = 400_000;

const UNTOUCHED: u8 = 0xa5;

mod library {
    unsafe extern "C" {
        fn curtzano_replay(
            file: *const u8,
            file_len: usize,
            calls: *const u8,
            calls_len: usize,
            out: *mut u8,
            out_len: usize,
        ) -> usize;
    }

    /// Writes the text at the start of `out` if it fits, and answers its length.
    pub fn replay(file: &[u8], calls: &[u8], out: &mut [u8]) -> usize {
        // SAFETY: each pointer comes with the length of the slice it is taken from.
        unsafe {
            curtzano_replay(
                file.as_ptr(),
                file.len(),
                calls.as_ptr(),
                calls.len(),
                out.as_mut_ptr(),
                out.len(),
            )
        }
    }
}

struct Comparison {
    root: PathBuf,
    tally: Tally,
}

impl Comparison {
    fn new(root: PathBuf) -> Answer<Self> {
        for (program, _) in PROGRAMS {
            let path = program_path(&root, program);
            if !path.is_file() {
                return Err(format!("there is no program {}", path.display()).into());
            }
        }
        Ok(Comparison {
            root,
            tally: Tally::default(),
        })
    }

    fn compare_programs(&mut self, file: &[u8]) -> Answer<()> {
        for (program, text) in PROGRAMS {
            let found = run_program(&program_path(&self.root, program), file)?;
            require_same(program, &text(file), &found)?;
        }
        self.tally.refused_cases += usize::from(second::listing(file).starts_with("refused "));
        Ok(())
    }

    fn compare_replay(&mut self, file: &[u8], calls: &[u8]) -> Answer<()> {
        let expected = second::replay(file, calls);
        require_same("replay", &expected, &replay_by_library(file, calls)?)?;
        let answers = || expected.lines().filter(|line| line.starts_with("call "));
        self.tally.calls += answers().count();
        self.tally.refused_calls += answers().filter(|line| line.contains(" refused ")).count();
        Ok(())
    }

    fn keep(&self, file: &[u8], calls: &[u8]) -> Answer<()> {
        let target = self.root.join("target");
        fs::write(target.join("difference.case"), file)?;
        fs::write(target.join("difference.calls"), calls)?;
        Ok(())
    }
}

fn require_same(program: &str, expected: &str, found: &[u8]) -> Answer<()> {
    if expected.as_bytes() == found {
        return Ok(());
    }
    let found = String::from_utf8_lossy(found);
    let same = expected
        .lines()
        .zip(found.lines())
        .take_while(|(ours, theirs)| ours == theirs)
        .count();
    let [ours, theirs] =
        [expected, &*found].map(|text| text.lines().nth(same).unwrap_or("the end"));
    Err(format!(
        "{program} differs in line {}: expected {ours}, found {theirs}",
        same + 1
    )
    .into())
}

fn program_path(root: &Path, program: &str) -> PathBuf {
    root.join("crates").join(program).join("out").join(program)
}

fn run_program(path: &Path, input: &[u8]) -> Answer<Vec<u8>> {
    let mut child = Command::new(path)
        .stdin(Stdio::piped())
        .stdout(Stdio::piped())
        .spawn()?;
    let mut stdin = child.stdin.take().ok_or("no standard input")?;
    match stdin.write_all(input) {
        // A program need not read an input to its end.
        Err(error) if error.kind() != ErrorKind::BrokenPipe => return Err(error.into()),
        _ => drop(stdin),
    }
    let output = child.wait_with_output()?;
    if !output.status.success() {
        return Err(format!("{} ends with {}", path.display(), output.status).into());
    }
    Ok(output.stdout)
}

/// A list of tile calls, cut where its replay would grow long.
fn calls_for(file: &[u8], random: &mut Random) -> Vec<u8> {
    let wait_words = second::wait_words(file).unwrap_or(vec![0; 4]);
    let mut calls = cases::tile_calls(random, &wait_words);
    calls.truncate(MOST_REPLAYED_BYTES / file.len().max(1));
    calls
}

/// Asks for the length with no room, then with a byte too little and one too many.
fn replay_by_library(file: &[u8], calls: &[u8]) -> Answer<Vec<u8>> {
    let replay_in = |room| {
        let mut out = vec![UNTOUCHED; room];
        (library::replay(file, calls, &mut out), out)
    };
    let (length, _) = replay_in(0);
    if length == 0 {
        return Err("replay wants memory".into());
    }
    let (length_of_short, short) = replay_in(length - 1);
    let (length_of_long, mut text) = replay_in(length + 1);
    if [length_of_short, length_of_long] != [length; 2] {
        return Err("replay answers several lengths for one text".into());
    }
    let spare = text.pop();
    if short.into_iter().chain(spare).any(|byte| byte != UNTOUCHED) {
        return Err("replay writes where it must not".into());
    }
    Ok(text)
}

fn check_self(count: u64, seed: u64) -> Answer<Tally> {
    let mut tally = Tally::default();
    for number in 0..count {
        let mut random = Random::for_case(seed, number);
        let file = cases::case_file(&mut random);
        let at_case = |message| format!("case {number} of seed {seed}: {message}");
        tally.check(&file, &mut random).map_err(at_case)?;
    }
    Ok(tally)
}

fn compare(count: u64, seed: u64, root: PathBuf) -> Answer<Tally> {
    let mut comparison = Comparison::new(root)?;
    for number in 0..count {
        let mut random = Random::for_case(seed, number);
        let file = cases::case_file(&mut random);
        let calls = calls_for(&file, &mut random);
        let programs = comparison.compare_programs(&file);
        if let Err(error) = programs.and_then(|()| comparison.compare_replay(&file, &calls)) {
            comparison.keep(&file, &calls)?;
            return Err(format!(
                "case {number} of seed {seed}, kept as target/difference.case and .calls: {error}"
            )
            .into());
        }
    }
    Ok(comparison.tally)
}

fn run(words: &[&str]) -> Answer<String> {
    let (count, tally) = match *words {
        ["--self", count] => (count, check_self(count.parse()?, 1)?),
        ["--self", count, seed] => (count, check_self(count.parse()?, seed.parse()?)?),
        [count] => (count, compare(count.parse()?, 1, ".".into())?),
        [count, seed] => (count, compare(count.parse()?, seed.parse()?, ".".into())?),
        [count, seed, root] => (count, compare(count.parse()?, seed.parse()?, root.into())?),
        _ => return Err("compare COUNT [SEED [ROOT]], or compare --self COUNT [SEED]".into()),
    };
    let Tally {
        refused_cases,
        calls,
        refused_calls,
    } = tally;
    Ok(format!(
        "{count} cases, {refused_cases} of them refused; \
         {calls} tile calls, {refused_calls} of them refused"
    ))
}

fn main() -> ExitCode {
    let words: Vec<String> = std::env::args().skip(1).collect();
    let words: Vec<&str> = words.iter().map(String::as_str).collect();
    match run(&words) {
        Ok(summary) => {
            println!("{summary}");
            ExitCode::SUCCESS
        }
        Err(error) => {
            eprintln!("{error}");
            ExitCode::FAILURE
        }
    }
}
