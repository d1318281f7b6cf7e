//! Times the proved core against plain Rust: both sides in one process, by turns, the least of many rounds.

mod linked;
mod plain;
mod works;

use std::env;
use std::process::ExitCode;
use std::time::{Duration, Instant};
use works::{Lent, Run, Work};

const ROUNDS: u32 = 15;
const LEAST: Duration = Duration::from_millis(10);

const USAGE: &str = "bench: times every work
bench --names: each work's name, and how many of it are done each time
bench --only NAME --side proved|plain --times N: does one work, for a count of instructions";

fn main() -> ExitCode {
    let arguments: Vec<String> = env::args().skip(1).collect();
    let words: Vec<&str> = arguments.iter().map(String::as_str).collect();
    let understood = match words[..] {
        [] => print_table(),
        ["--names"] => print_names(),
        ["--only", name, "--side", side, "--times", times] => do_one(name, side, times),
        _ => None,
    };
    if understood.is_none() {
        eprintln!("{USAGE}");
        return ExitCode::FAILURE;
    }
    ExitCode::SUCCESS
}

fn print_names() -> Option<()> {
    for work in works::all() {
        println!("{} {}", work.name, work.each);
    }
    Some(())
}

fn do_one(name: &str, side: &str, times: &str) -> Option<()> {
    let times = times.parse().ok()?;
    let work = works::all().into_iter().find(|work| work.name == name)?;
    let run = match side {
        "proved" => work.proved,
        "plain" => work.plain,
        _ => return None,
    };
    println!("{name} {side} {}", run(times, &mut Lent::new()));
    Some(())
}

fn print_table() -> Option<()> {
    let (proved, plain) = ("proved ns", "Rust ns");
    println!("{:<18}{proved:>11}{plain:>11}{:>8}", "work", "ratio");
    for work in works::all() {
        check_equal(&work);
        let (proved, plain) = least(&work);
        let ratio = proved / plain;
        println!("{:<18}{proved:>11.1}{plain:>11.1}{ratio:>8.2}", work.name);
    }
    Some(())
}

/// Both sides find the same and leave the same bytes.
fn check_equal(work: &Work) {
    let (mut ours, mut theirs) = (Lent::new(), Lent::new());
    let sums = ((work.proved)(3, &mut ours), (work.plain)(3, &mut theirs));
    assert_eq!(sums.0, sums.1, "{}: the answers differ", work.name);
    assert!(ours == theirs, "{}: the lent bytes differ", work.name);
}

/// Nanoseconds of each side, the least of the rounds.
fn least(work: &Work) -> (f64, f64) {
    let mut lent = Lent::new();
    let times = enough(work, &mut lent);
    let mut proved = Duration::MAX;
    let mut plain = Duration::MAX;
    for _ in 0..ROUNDS {
        proved = proved.min(time(&work.proved, times, &mut lent));
        plain = plain.min(time(&work.plain, times, &mut lent));
    }
    let done = f64::from(times) * f64::from(work.each);
    let each = |time: Duration| time.as_secs_f64() * 1e9 / done;
    (each(proved), each(plain))
}

/// So many times that the faster side takes long enough for the clock.
fn enough(work: &Work, lent: &mut Lent) -> u32 {
    let mut times = 1;
    while time(&work.proved, times, lent).min(time(&work.plain, times, lent)) < LEAST {
        times *= 2;
    }
    times
}

fn time(run: &Run, times: u32, lent: &mut Lent) -> Duration {
    let start = Instant::now();
    std::hint::black_box(run(times, lent));
    start.elapsed()
}
