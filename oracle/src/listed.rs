//! The places where an answer is, on purpose, not what the Rust says: each has
//! a name here and is counted, so that a run can say how many answers it
//! touched. Whatever else differs is unlisted, and loud.

use crate::words::Asked;

/// One listed difference between the Rust and document 01 or the protocol.
#[derive(Clone, Copy, PartialEq, Eq, Debug)]
pub enum Listed {
    BackTookPrefix,
    AfterAbsent,
    PrefixFromBack,
    EmptyRest,
    EmptyStrip,
    ShareOutside,
    ExtensionPanic,
}

pub const ALL: [Listed; 7] = [
    Listed::BackTookPrefix,
    Listed::AfterAbsent,
    Listed::PrefixFromBack,
    Listed::EmptyRest,
    Listed::EmptyStrip,
    Listed::ShareOutside,
    Listed::ExtensionPanic,
];

impl Listed {
    /// The short name that runs print and FINDINGS.md uses.
    pub fn code(self) -> &'static str {
        match self {
            Listed::BackTookPrefix => "D1",
            Listed::AfterAbsent => "D2",
            Listed::PrefixFromBack => "D3",
            Listed::EmptyRest => "D4",
            Listed::EmptyStrip => "D5",
            Listed::ShareOutside => "D6",
            Listed::ExtensionPanic => "D7",
        }
    }

    pub fn says(self) -> &'static str {
        match self {
            Listed::BackTookPrefix => {
                "rest after a back step took the prefix: Rust shows the prefix, here empty at 0"
            }
            Listed::AfterAbsent => {
                "rest after a step found nothing: Rust's may change, here it does not (no request reaches it)"
            }
            Listed::PrefixFromBack => {
                "`C:.` taken from the back: Rust's prefix extent goes behind the dot, here it is 2"
            }
            Listed::EmptyRest => {
                "place of an empty rest: Rust's stands behind what it skipped, here behind the F-th component"
            }
            Listed::EmptyStrip => "place of an empty strip: the same as D4",
            Listed::ShareOutside => {
                "an empty share that no `\\` came before has no place in Rust, here the path's end"
            }
            Listed::ExtensionPanic => "an extension with a separator: Rust panics, here reply 4",
        }
    }
}

/// What the answers of a run touched.
#[derive(Clone, Default, Debug)]
pub struct Tally {
    counts: [u64; ALL.len()],
    smallest: [Option<Vec<u8>>; ALL.len()],
    unlisted: u64,
    unlisted_first: Vec<String>,
}

impl Tally {
    /// Counts one answer that `which` touched.
    pub fn touch(&mut self, which: Listed, asked: &Asked<'_>) {
        let at = which as usize;
        self.counts[at] += 1;
        let smaller = match &self.smallest[at] {
            None => true,
            Some(old) if asked.size() != old.len() => asked.size() < old.len(),
            Some(old) => asked.line() < *old,
        };
        if smaller {
            self.smallest[at] = Some(asked.line());
        }
    }

    /// Counts an answer in which the Rust differs and no listed difference
    /// explains it.
    pub fn unlisted(&mut self, asked: &Asked<'_>, why: String) {
        self.unlisted += 1;
        if self.unlisted_first.len() < 10 {
            self.unlisted_first.push(format!("{}: {why}", crate::readable::request(&asked.line())));
        }
    }

    pub fn count(&self, which: Listed) -> u64 {
        self.counts[which as usize]
    }
    pub fn smallest(&self, which: Listed) -> Option<&[u8]> {
        self.smallest[which as usize].as_deref()
    }
    pub fn unlisted_count(&self) -> u64 {
        self.unlisted
    }

    /// The lines that a run prints about the differences.
    pub fn report(&self) -> String {
        use std::fmt::Write;
        let mut s = String::new();
        for which in ALL {
            let n = self.count(which);
            if n > 0 {
                let least = crate::readable::request(self.smallest(which).unwrap());
                writeln!(s, "listed {} x{n}: {}; smallest: {least}", which.code(), which.says()).unwrap();
            }
        }
        writeln!(s, "unlisted x{}", self.unlisted).unwrap();
        for why in &self.unlisted_first {
            writeln!(s, "UNLISTED {why}").unwrap();
        }
        s
    }
}
