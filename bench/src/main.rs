//! Times the proved library and a plain Rust implementation on the same inputs, and compares their answers.

mod inputs;
mod plain;
mod proved;
mod rows;
mod turns;

use rows::{PLAIN, PROVED, ROWS, Row};
use std::fmt::{self, Display, Formatter};
use std::process::{Command, ExitCode};
use std::time::{Duration, Instant};

/// The largest ratio that is wanted.
const WANTED: f64 = 1.1;

/// Each side is timed so often, in turn with the other, and its least time counts.
const ROUNDS: usize = 100;

/// What one round is to take.
const ROUND: Duration = Duration::from_millis(5);

/// The calls that are made for the rows that need a list of them.
const CALLS: usize = 8_192;

/// Instructions are counted over so many calls: what twice as many take, less what these take.
const COUNTED_CALLS: usize = 256;

fn main() -> ExitCode {
    let words: Vec<String> = std::env::args().skip(1).collect();
    let words: Vec<&str> = words.iter().map(String::as_str).collect();
    match words[..] {
        [] => compare(""),
        [part] => compare(part),
        ["count", row, side, calls] => {
            play_once(row, side, calls);
            ExitCode::SUCCESS
        }
        _ => {
            eprintln!("usage: bench [PART]: all rows, or those whose names have the part");
            ExitCode::FAILURE
        }
    }
}

/// One side's calls of a row, for the instructions of this process to be counted.
fn play_once(row: &str, side: &str, calls: &str) {
    let row = ROWS[row.parse::<usize>().expect("a row")].with_calls(2 * COUNTED_CALLS);
    let planner = if side == "proved" { &PROVED } else { &PLAIN };
    println!(
        "{}",
        row.play(planner, calls.parse().expect("a number of calls"))
    );
}

/// What one call takes by each side, in nanoseconds or instructions.
struct Pair {
    proved: f64,
    plain: f64,
}

impl Pair {
    fn ratio(&self) -> f64 {
        self.proved / self.plain
    }
}

impl Display for Pair {
    fn fmt(&self, f: &mut Formatter) -> fmt::Result {
        let digits = f.precision().unwrap_or(0);
        write!(
            f,
            "{:.digits$} | {:.digits$} | {:.2}",
            self.proved,
            self.plain,
            self.ratio()
        )
    }
}

fn compare(part: &str) -> ExitCode {
    let compared = match rows::answers_agree() {
        Ok(calls) => calls,
        Err(what) => {
            eprintln!("bench: the answers differ: {what}");
            return ExitCode::FAILURE;
        }
    };
    println!("{compared} pseudo-random calls, many of them refused: the same answers");
    println!();
    let timed = match time(part) {
        Ok(timed) => timed,
        Err(name) => {
            eprintln!("bench: the checksums of \"{name}\" differ");
            return ExitCode::FAILURE;
        }
    };
    let counts = valgrind_is_there();
    if counts {
        println!(
            "| | proved ns | Rust ns | ratio | proved instructions | Rust instructions | ratio |"
        );
        println!("|---|--:|--:|--:|--:|--:|--:|");
    } else {
        println!("| | proved ns | Rust ns | ratio |");
        println!("|---|--:|--:|--:|");
    }
    let mut above = Vec::new();
    for (index, row, took) in timed {
        print!("| {} | {took:.1} |", row.name);
        let mut most = took.ratio();
        if counts {
            let counted = Pair {
                proved: instructions(index, "proved"),
                plain: instructions(index, "plain"),
            };
            print!(" {counted:.0} |");
            most = most.max(counted.ratio());
        }
        println!();
        if most > WANTED {
            above.push(row.name);
        }
    }
    println!();
    if above.is_empty() {
        println!("no ratio is above {WANTED}");
    } else {
        println!("above {WANTED}: {}", above.join("; "));
    }
    if !counts {
        println!("valgrind is not there: no instructions are counted");
    }
    ExitCode::SUCCESS
}

/// The rows whose names have the part, with the time of one call in nanoseconds; or a row whose checksums differ.
/// A round goes through all rows, so that no row has to itself a while in which the machine is busy.
fn time(part: &str) -> Result<Vec<(usize, Row, Pair)>, &'static str> {
    let rows: Vec<(usize, Row)> = (0..)
        .zip(&ROWS)
        .filter(|(_, kind)| kind.name.contains(part))
        .map(|(index, kind)| (index, kind.with_calls(CALLS)))
        .collect();
    let calls: Vec<u64> = rows.iter().map(|(_, row)| calls_in_a_round(row)).collect();
    let mut least = vec![[Duration::MAX; 2]; rows.len()];
    for _ in 0..ROUNDS {
        for (((_, row), &calls), least) in rows.iter().zip(&calls).zip(&mut least) {
            let mut sums = [0; 2];
            for (side, planner) in [&PROVED, &PLAIN].into_iter().enumerate() {
                let began = Instant::now();
                sums[side] = row.play(planner, calls);
                least[side] = least[side].min(began.elapsed());
            }
            if sums[0] != sums[1] {
                return Err(row.name);
            }
        }
    }
    let timed = rows.into_iter().zip(calls).zip(least);
    Ok(timed
        .map(|(((index, row), calls), least)| {
            let [proved, plain] = least.map(|took| took.as_nanos() as f64 / calls as f64);
            (index, row, Pair { proved, plain })
        })
        .collect())
}

fn calls_in_a_round(row: &Row) -> u64 {
    let mut calls = 1_024;
    loop {
        let began = Instant::now();
        row.play(&PLAIN, calls);
        if began.elapsed() >= ROUND {
            return calls;
        }
        calls *= 2;
    }
}

fn valgrind_is_there() -> bool {
    Command::new("valgrind")
        .arg("--version")
        .output()
        .is_ok_and(|output| output.status.success())
}

/// The instructions of one call.
fn instructions(row: usize, side: &str) -> f64 {
    let fewer = instructions_of(row, side, COUNTED_CALLS);
    let more = instructions_of(row, side, 2 * COUNTED_CALLS);
    (more - fewer) as f64 / COUNTED_CALLS as f64
}

/// The instructions of a process that makes so many calls, as callgrind counts them.
fn instructions_of(row: usize, side: &str, calls: usize) -> u64 {
    let output = Command::new("valgrind")
        .args(["--tool=callgrind", "--callgrind-out-file=/dev/null"])
        .arg(std::env::current_exe().expect("the path of this program"))
        .args(["count", &row.to_string(), side, &calls.to_string()])
        .output()
        .expect("valgrind runs");
    let said = String::from_utf8_lossy(&output.stderr);
    said.lines()
        .find_map(|line| line.split("Collected :").nth(1))
        .and_then(|count| count.trim().parse().ok())
        .unwrap_or_else(|| panic!("callgrind said nothing of instructions:\n{said}"))
}
