//! One comparison, and what is said of a difference.

use crate::case::{Case, Outcome};
use crate::{archive, input, shrink, Tally};
use linked::Module;
use std::fmt;

/// A call on which the two sides differ, as small as it was found.
#[derive(Clone, Debug)]
pub struct Difference {
    /// The call.
    pub case: Case,
    /// What the archive returns and leaves.
    pub ours: Outcome,
    /// What the reference returns and leaves.
    pub theirs: Outcome,
}

/// A comparison found no difference, or one.
pub type Done = Result<(), Box<Difference>>;

/// The archive against another side, and what has been compared so far.
#[derive(Clone, Debug)]
pub struct Comparison {
    theirs: fn(&Case) -> Outcome,
    /// What has been compared.
    pub tally: Tally,
}

impl Comparison {
    /// The archive against the side given; [`crate::paper::outcome`] is the reference.
    pub fn new(theirs: fn(&Case) -> Outcome) -> Self {
        Comparison {
            theirs,
            tally: Tally::default(),
        }
    }

    /// Compares one call and says how it ended.
    pub fn call(&mut self, case: &Case) -> Result<Outcome, Box<Difference>> {
        let ours = archive::outcome(case);
        if ours != (self.theirs)(case) {
            return Err(Box::new(self.smallest(case)));
        }
        self.tally.count(case, &ours);
        Ok(ours)
    }

    fn smallest(&self, case: &Case) -> Difference {
        let case = shrink::shrunk(case, |case| archive::outcome(case) != (self.theirs)(case));
        Difference {
            ours: archive::outcome(&case),
            theirs: (self.theirs)(&case),
            case,
        }
    }
}

/// Bytes in hex; what they all end in is said once.
fn hex(bytes: &[u8]) -> String {
    let fill = bytes.last().copied().unwrap_or(0);
    let front = bytes.iter().rposition(|&byte| byte != fill);
    let front = front.map_or(0, |place| place + 1);
    let mut text = String::new();
    for byte in &bytes[..front] {
        text += &format!("{byte:02X}");
    }
    match bytes.len() - front {
        0 => text,
        rest => format!("{text} and {rest} times {fill:02X}"),
    }
}

fn say_table(f: &mut fmt::Formatter, table: &[Module]) -> fmt::Result {
    for (place, module) in table.iter().enumerate() {
        writeln!(f, "    table[{place}] = {module:?}")?;
    }
    Ok(())
}

fn say_outcome(f: &mut fmt::Formatter, who: &str, outcome: &Outcome) -> fmt::Result {
    writeln!(f, "  {who}: {:?}", outcome.returned)?;
    if !outcome.bytes.is_empty() {
        writeln!(f, "    lent bytes then: {}", hex(&outcome.bytes))?;
    }
    if !outcome.store.is_empty() {
        writeln!(f, "    lent store then: {}", hex(&outcome.store))?;
    }
    if outcome.strayed {
        writeln!(f, "    memory beside what was lent was changed")?;
    }
    say_table(f, &outcome.table)
}

impl fmt::Display for Difference {
    fn fmt(&self, f: &mut fmt::Formatter) -> fmt::Result {
        writeln!(f, "difference: {}", self.case.function())?;
        say_case(f, &self.case)?;
        say_outcome(f, "archive  ", &self.ours)?;
        say_outcome(f, "reference", &self.theirs)?;
        writeln!(f, "  as input: {}", plain_hex(&input::encoded(&self.case)))
    }
}

fn plain_hex(bytes: &[u8]) -> String {
    bytes.iter().map(|byte| format!("{byte:02x}")).collect()
}

fn say_case(f: &mut fmt::Formatter, case: &Case) -> fmt::Result {
    let mut case = case.clone();
    let parts = shrink::parts(&mut case);
    for (name, bytes) in &parts.texts {
        writeln!(f, "    {name}: {} bytes: {}", bytes.len(), hex(bytes))?;
    }
    if let Some(bytes) = &parts.lent {
        writeln!(f, "    lent: {} bytes: {}", bytes.len(), hex(bytes))?;
    }
    for (name, byte) in &parts.bytes {
        writeln!(f, "    {name}: {byte:02X}")?;
    }
    if let Some(open) = &parts.open {
        writeln!(f, "    open: {open:#X}")?;
    }
    for (name, size) in &parts.sizes {
        writeln!(f, "    {name}: {size}")?;
    }
    for (name, number) in &parts.totals {
        writeln!(f, "    {name}: {number}")?;
    }
    for module in &parts.modules {
        writeln!(f, "    record: {module:?}")?;
    }
    match &parts.table {
        Some(table) => say_table(f, table),
        None => Ok(()),
    }
}
