//! Whether generated scripts tell each wrong core from the right one.

use std::panic::{catch_unwind, AssertUnwindSafe};

use crate::generate::generate;
use crate::probe::{Plain, Probe};
use crate::script::Player;
use crate::wrong::{Deviation, Wrong};

/// Where a wrong core first answers otherwise.
#[derive(Clone, Copy, PartialEq, Eq, Debug)]
pub struct Caught {
    pub seed: u64,
    /// Counted from 1.
    pub line: usize,
}

/// A script with the right answers to its lines.
struct Example {
    seed: u64,
    script: Vec<u8>,
    answers: Vec<Vec<u8>>,
}

/// Plays the scripts of seeds 1 to `seeds` as each wrong core.
pub fn wrong_check(seeds: u64, lines: usize) -> Vec<(Wrong, Option<Caught>)> {
    let examples: Vec<Example> = (1..=seeds).map(|seed| example(seed, lines)).collect();
    let caught = |&wrong: &Wrong| (wrong, examples.iter().find_map(|one| one.catch(wrong)));
    Wrong::ALL.iter().map(caught).collect()
}

fn example(seed: u64, lines: usize) -> Example {
    let script = generate(seed, lines).script;
    let mut player = Player::new(Plain);
    let answers = split(&script)
        .map(|line| answer(&mut player, line))
        .collect();
    Example {
        seed,
        script,
        answers,
    }
}

impl Example {
    fn catch(&self, wrong: Wrong) -> Option<Caught> {
        let mut player = Player::new(Deviation::new(wrong));
        let mut pairs = split(&self.script).zip(&self.answers);
        let differs = |(line, right): (&[u8], &Vec<u8>)| {
            // A wrong core that falls over is caught as well.
            let played = catch_unwind(AssertUnwindSafe(|| answer(&mut player, line)));
            played.ok().as_ref() != Some(right)
        };
        let line = pairs.position(differs)? + 1;
        let seed = self.seed;
        Some(Caught { seed, line })
    }
}

fn split(script: &[u8]) -> impl Iterator<Item = &[u8]> {
    script
        .strip_suffix(b"\n")
        .unwrap_or(script)
        .split(|&byte| byte == b'\n')
}

fn answer<P: Probe>(player: &mut Player<P>, line: &[u8]) -> Vec<u8> {
    let mut out = Vec::new();
    player.play(line, &mut out);
    out
}
