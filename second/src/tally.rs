//! Counts what a script reaches.

use std::fmt::{Display, Formatter, Result};

use crate::probe::{Call, Probe, Rule};
use crate::state::Fault;

/// Refusal numbers run from 0 (done) to 16.
const NUMBERS: usize = 17;

pub struct Tally {
    rules: Vec<u32>,
    refusals: Vec<[u32; NUMBERS]>,
    faults: Vec<u32>,
}

impl Default for Tally {
    fn default() -> Tally {
        Tally {
            rules: vec![0; Rule::ALL.len()],
            refusals: vec![[0; NUMBERS]; Call::ALL.len()],
            faults: vec![0; Fault::ALL.len()],
        }
    }
}

impl Probe for Tally {
    fn reach(&mut self, rule: Rule) {
        self.rules[rule as usize] += 1;
    }

    fn unsound(&mut self, clause: Fault) {
        self.faults[clause as usize] += 1;
    }

    fn answered(&mut self, call: Call, refusal: u32) {
        self.refusals[call as usize][refusal as usize] += 1;
    }
}

impl Tally {
    pub fn rule(&self, rule: Rule) -> u32 {
        self.rules[rule as usize]
    }

    pub fn refusal(&self, call: Call, number: u32) -> u32 {
        self.refusals[call as usize][number as usize]
    }

    /// Over all calls.
    pub fn number(&self, number: u32) -> u32 {
        Call::ALL
            .iter()
            .map(|&call| self.refusal(call, number))
            .sum()
    }

    pub fn fault(&self, clause: Fault) -> u32 {
        self.faults[clause as usize]
    }
}

impl Display for Tally {
    fn fmt(&self, out: &mut Formatter) -> Result {
        writeln!(out, "call and answer")?;
        for &call in Call::ALL {
            write!(out, "  {:14} 0: {}", call.name(), self.refusal(call, 0))?;
            for &number in call.refusals() {
                write!(out, "  {number}: {}", self.refusal(call, number))?;
            }
            writeln!(out)?;
        }
        write!(out, "refusal number\n ")?;
        for number in 0..NUMBERS as u32 {
            write!(out, " {number}: {}", self.number(number))?;
        }
        writeln!(out, "\npacket rule")?;
        for &rule in Rule::ALL {
            writeln!(out, "  {:6} {}", self.rule(rule), rule.name())?;
        }
        writeln!(out, "refusal 1, first clause that does not hold")?;
        for &clause in Fault::ALL {
            writeln!(out, "  {:6} {}", self.fault(clause), clause.name())?;
        }
        Ok(())
    }
}
