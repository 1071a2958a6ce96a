//! A run: how often each call was compared, and what it met.

use oracle::events::KINDS;
use oracle::refusal::Refusal;
use std::collections::BTreeMap;
use std::fmt;

/// The calls of the gate.
pub const CALLS: [&str; 7] = [
    "read_dictionary",
    "read_layout",
    "expand",
    "level_members",
    "walk_group",
    "walk_message",
    "verdicts",
];

pub struct Run {
    pub guarded: bool,
    calls: BTreeMap<&'static str, u64>,
    refusals: [u64; 15],
    kinds: [u64; 12],
    verdicts: [u64; 4],
    limits: BTreeMap<&'static str, u64>,
}

impl Run {
    pub fn new(guarded: bool) -> Self {
        Self {
            guarded,
            calls: BTreeMap::new(),
            refusals: [0; 15],
            kinds: [0; 12],
            verdicts: [0; 4],
            limits: BTreeMap::new(),
        }
    }

    /// How many calls were compared.
    pub fn calls(&self) -> u64 {
        self.calls.values().sum()
    }

    pub fn called(&mut self, call: &'static str) {
        *self.calls.entry(call).or_default() += 1;
    }

    pub fn refused(&mut self, refusal: Refusal) {
        self.refusals[usize::from(refusal.number)] += 1;
    }

    /// The events of an answer, five words each.
    pub fn walked(&mut self, words: &[u64]) {
        for event in words.chunks_exact(5) {
            self.kinds[event[0] as usize] += 1;
        }
    }

    pub fn judged(&mut self, verdicts: &[u64]) {
        for verdict in verdicts {
            self.verdicts[*verdict as usize] += 1;
        }
    }

    /// A size that stands at a limit of document 01.
    pub fn reached(&mut self, limit: &'static str, holds: bool) {
        *self.limits.entry(limit).or_default() += u64::from(holds);
    }
}

impl fmt::Display for Run {
    fn fmt(&self, f: &mut fmt::Formatter<'_>) -> fmt::Result {
        writeln!(f, "calls {}", self.calls())?;
        for call in CALLS {
            writeln!(f, "  {call} {}", self.calls.get(call).unwrap_or(&0))?;
        }
        writeln!(f, "refusals")?;
        for (number, times) in self.refusals.iter().enumerate().skip(1) {
            writeln!(f, "  {number} {times}")?;
        }
        writeln!(f, "events")?;
        for (kind, times) in KINDS.iter().zip(&self.kinds[1..]) {
            writeln!(f, "  {kind} {times}")?;
        }
        writeln!(f, "verdicts")?;
        for (verdict, times) in self.verdicts.iter().enumerate() {
            writeln!(f, "  {verdict} {times}")?;
        }
        writeln!(f, "limits")?;
        for (limit, times) in &self.limits {
            writeln!(f, "  {limit} {times}")?;
        }
        Ok(())
    }
}
