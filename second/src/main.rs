//! Plays, writes and counts call scripts.
#![forbid(unsafe_code)]

use std::io::{self, Write};
use std::process::ExitCode;

use second::check::wrong_check;
use second::generate::generate;
use second::listing::Listing;
use second::script::Player;
use second::stream::answer_lines;
use second::tally::Tally;
use second::wrong::{Deviation, Wrong};
use second::{Plain, Probe};

const USAGE: &str = "\
second                                 plays the call script on standard input
second --usbline                       the night desk's listing
second --generate SEED LINES           writes a call script
second --generate SEED LINES --counts  counts what that script reaches
second --count                         counts what the script on standard input reaches
second --wrong NAME                    plays the call script as a wrong core
second --wrong list                    names the wrong cores
second --wrong-check SEEDS LINES       plays generated scripts (seeds 1 to SEEDS) as each wrong core
";

fn main() -> ExitCode {
    let arguments: Vec<String> = std::env::args().skip(1).collect();
    let words: Vec<&str> = arguments.iter().map(String::as_str).collect();
    match run(&words) {
        Some(Ok(true)) => ExitCode::SUCCESS,
        Some(Ok(false)) => ExitCode::FAILURE,
        Some(Err(error)) => {
            eprintln!("second: {error}");
            ExitCode::FAILURE
        }
        None => {
            eprint!("{USAGE}");
            ExitCode::from(2)
        }
    }
}

/// `None` where the arguments are none of the forms; false where a check failed.
fn run(words: &[&str]) -> Option<io::Result<bool>> {
    let done = match *words {
        [] => play(Plain),
        ["--usbline"] => list(),
        ["--generate", seed, lines] => {
            let script = generate(seed.parse().ok()?, lines.parse().ok()?).script;
            print(&script)
        }
        ["--generate", seed, lines, "--counts"] => {
            let tally = generate(seed.parse().ok()?, lines.parse().ok()?).tally;
            print(tally.to_string().as_bytes())
        }
        ["--count"] => count(),
        ["--wrong", "list"] => name_wrongs(),
        ["--wrong", name] => play(Deviation::new(Wrong::from_name(name)?)),
        ["--wrong-check", seeds, lines] => {
            return Some(check(seeds.parse().ok()?, lines.parse().ok()?));
        }
        _ => return None,
    };
    Some(done.map(|()| true))
}

fn print(bytes: &[u8]) -> io::Result<()> {
    let mut output = io::stdout().lock();
    output.write_all(bytes)?;
    output.flush()
}

fn play<P: Probe>(probe: P) -> io::Result<()> {
    let mut player = Player::new(probe);
    let mut output = io::stdout().lock();
    answer_lines(&mut io::stdin().lock(), &mut output, |line, out| {
        player.play(line, out)
    })
}

fn list() -> io::Result<()> {
    let refused = |refusal| io::Error::other(format!("set-up refused: {refusal:?}"));
    let mut listing = Listing::new().map_err(refused)?;
    let mut output = io::stdout().lock();
    answer_lines(&mut io::stdin().lock(), &mut output, |line, out| {
        listing.answer(line, out)
    })?;
    output.write_all(listing.last_line().as_bytes())?;
    output.flush()
}

fn count() -> io::Result<()> {
    let mut player = Player::new(Tally::default());
    let mut answers = io::sink();
    answer_lines(&mut io::stdin().lock(), &mut answers, |line, out| {
        player.play(line, out)
    })?;
    print(player.probe().to_string().as_bytes())
}

fn name_wrongs() -> io::Result<()> {
    let names: String = Wrong::ALL
        .iter()
        .map(|wrong| format!("{}\n", wrong.name()))
        .collect();
    print(names.as_bytes())
}

/// Whether every wrong core was caught.
fn check(seeds: u64, lines: usize) -> io::Result<bool> {
    let mut all = true;
    let mut table = String::new();
    for (wrong, caught) in wrong_check(seeds, lines) {
        all &= caught.is_some();
        let place = caught.map_or("NOT CAUGHT".to_owned(), |caught| {
            format!("seed {} line {}", caught.seed, caught.line)
        });
        table += &format!("{:26} {place}\n", wrong.name());
    }
    print(table.as_bytes())?;
    Ok(all)
}
