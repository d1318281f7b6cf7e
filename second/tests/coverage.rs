//! What generated scripts reach, and which wrong cores they catch.

use second::check::wrong_check;
use second::generate::{forcible, generate};
use second::probe::{Call, Rule};

const SEEDS: std::ops::RangeInclusive<u64> = 1..=40;
const LINES: usize = 2_000;

#[test]
fn every_rule_is_reached() {
    for seed in SEEDS {
        let tally = generate(seed, LINES).tally;
        for &rule in Rule::ALL {
            let count = tally.rule(rule);
            assert!(count >= 5, "seed {seed}: {} only {count}", rule.name());
        }
    }
}

#[test]
fn every_refusal_is_reached() {
    for seed in SEEDS {
        let tally = generate(seed, LINES).tally;
        for number in 1..=16 {
            let count = tally.number(number);
            assert!(count >= 5, "seed {seed}: refusal {number} only {count}");
        }
        for &call in Call::ALL {
            for &number in call.refusals() {
                let count = tally.refusal(call, number);
                let name = call.name();
                assert!(count >= 2, "seed {seed}: {name} {number} only {count}");
            }
        }
    }
}

#[test]
fn every_clause_is_broken() {
    for seed in SEEDS {
        let tally = generate(seed, LINES).tally;
        for clause in forcible() {
            assert!(tally.fault(clause) > 0, "seed {seed}: {}", clause.name());
        }
    }
}

#[test]
fn scripts_are_the_same_for_a_seed_and_have_their_lines() {
    for seed in [0, 1, u64::MAX] {
        let script = generate(seed, LINES).script;
        assert_eq!(script, generate(seed, LINES).script);
        let newlines = script.iter().filter(|&&byte| byte == b'\n').count();
        assert_eq!(newlines, LINES);
    }
    assert_ne!(generate(1, LINES).script, generate(2, LINES).script);
    assert_eq!(generate(1, 0).script, b"");
}

#[test]
fn long_scripts_keep_their_lines_short() {
    assert!(generate(1, 100_000).script.len() < 15_000_000);
}

#[test]
fn no_call_gives_a_refusal_of_another() {
    let tally = generate(3, 20_000).tally;
    for &call in Call::ALL {
        for number in (1..=16).filter(|number| !call.refusals().contains(number)) {
            assert_eq!(tally.refusal(call, number), 0, "{} {number}", call.name());
        }
    }
}

#[test]
fn every_wrong_core_is_caught() {
    for (wrong, caught) in wrong_check(10, LINES) {
        assert!(caught.is_some(), "{} is not caught", wrong.name());
    }
}
