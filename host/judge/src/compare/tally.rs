//! How many comparisons came to which verdict.

use std::collections::BTreeMap;
use std::fmt;

use super::{Kind, Reason, Verdict};

#[derive(Default)]
pub struct Tally {
    agree: BTreeMap<Kind, usize>,
    apart: BTreeMap<(Kind, Reason), usize>,
    pub differ: usize,
}

impl Tally {
    pub fn add(&mut self, verdict: &Verdict) {
        match verdict {
            Verdict::Agree(kind) => *self.agree.entry(*kind).or_default() += 1,
            Verdict::Apart(kind, reason) => *self.apart.entry((*kind, *reason)).or_default() += 1,
            Verdict::Differ(_) => self.differ += 1,
        }
    }

    /// Adds the comparisons of another tally.
    pub fn merge(&mut self, other: Tally) {
        other.agree.into_iter().for_each(|(kind, count)| *self.agree.entry(kind).or_default() += count);
        other.apart.into_iter().for_each(|(kind, count)| *self.apart.entry(kind).or_default() += count);
        self.differ += other.differ;
    }

    /// All cases.
    pub fn cases(&self) -> usize {
        self.agreed() + self.apart.values().sum::<usize>() + self.differ
    }

    /// The cases that agree.
    pub fn agreed(&self) -> usize {
        self.agree.values().sum()
    }

    /// The cases that agree with the Rust, or are refused as the host's own reading refuses them.
    pub fn compared(&self) -> usize {
        self.agreed() + self.apart_for(Reason::Reading)
    }

    /// The cases that are apart for a reason.
    pub fn apart_for(&self, reason: Reason) -> usize {
        self.apart.iter().filter(|((_, of), _)| *of == reason).map(|(_, count)| count).sum()
    }

    /// The cases of a kind that do not differ.
    pub fn count(&self, kind: Kind) -> usize {
        let apart =
            self.apart.iter().filter(|((of, _), _)| *of == kind).map(|(_, count)| count).sum::<usize>();
        self.agree.get(&kind).copied().unwrap_or_default() + apart
    }

    /// What keeps the comparison from being one: a case that differs, too small a share, in percent, of cases that were
    /// compared, or too few cases of a kind.
    pub fn lacks(&self, share: usize, kinds: impl IntoIterator<Item = (Kind, usize)>) -> Option<String> {
        if self.differ > 0 {
            return Some(format!("{} cases differ", self.differ));
        }
        let (cases, compared) = (self.cases(), self.compared());
        if cases == 0 || compared * 100 < cases * share {
            return Some(format!(
                "{compared} of {cases} cases were compared, {share} of a hundred are wanted"
            ));
        }
        kinds.into_iter().find_map(|(kind, wanted)| {
            let count = self.count(kind);
            (count < wanted).then(|| format!("{kind}: {count} cases, {wanted} are wanted"))
        })
    }
}

impl fmt::Display for Tally {
    fn fmt(&self, f: &mut fmt::Formatter<'_>) -> fmt::Result {
        for (kind, count) in &self.agree {
            writeln!(f, "{kind:<16} {count:>8} agree")?;
        }
        for ((kind, reason), count) in &self.apart {
            writeln!(f, "{kind:<16} {count:>8} apart: {reason}")?;
        }
        let apart: usize = self.apart.values().sum();
        let (agree, differ) = (self.agreed(), self.differ);
        write!(f, "{} cases: {agree} agree, {apart} apart, {differ} differ", self.cases())
    }
}
