//! How many cases there were, and which came to something else than their lines say.
use anyhow::{Result, anyhow};
use std::io::Write;

/// What the lines of an input came to.
#[derive(Drop)]
pub(crate) struct Tally {
    lines: u64,
    cases: u64,
    others: u64,
}

impl Tally {
    /// No line was read.
    pub(crate) fn new() -> Tally {
        Tally {
            lines: 0,
            cases: 0,
            others: 0,
        }
    }

    /// Notes a line that is no case.
    pub(crate) fn pass(&mut self) {
        self.lines = self.lines.saturating_add(1);
    }

    /// Notes a case. Where it came to something else than was wanted, prints both.
    pub(crate) fn note<W: Write>(
        &mut self,
        asked: &str,
        wanted: &str,
        got: &[u8],
        out: &mut W,
    ) -> Result<()> {
        self.pass();
        self.cases = self.cases.saturating_add(1);
        if got == wanted.as_bytes() {
            return Ok(());
        }
        self.others = self.others.saturating_add(1);
        let number = self.lines;
        writeln!(out, "line {number}: {asked}\n    wanted {wanted}")?;
        out.write_all(b"    got    ")?;
        out.write_all(got)?;
        Ok(out.write_all(b"\n")?)
    }

    /// Prints how many cases there were. An error where one came to something else.
    pub(crate) fn end<W: Write>(&self, out: &mut W) -> Result<()> {
        let (cases, others) = (self.cases, self.others);
        if others == 0 {
            writeln!(out, "{cases} lines, all as told")?;
            return Ok(out.flush()?);
        }
        out.flush()?;
        Err(anyhow!("{others} of {cases} lines come to something else"))
    }
}
