//! Steps from a tag to its canonical form.
use crate::StepKind;
use std::fmt;

/// A step. It is shown as the program shows it, for example `Region 2 27 sgn-DE`.
#[derive(Clone, Debug, PartialEq, Eq, Hash)]
pub struct Step {
    /// The kind.
    pub kind: StepKind,
    /// The subtag that changes, counted from 1.
    pub place: u32,
    /// The record that the step uses, counted from 1; 0 where it uses none.
    pub number: u32,
    /// The tag to which it leads.
    pub tag: String,
}

impl fmt::Display for Step {
    fn fmt(&self, f: &mut fmt::Formatter<'_>) -> fmt::Result {
        write!(f, "{} {} {} {}", self.kind, self.place, self.number, self.tag)
    }
}

/// The steps from a tag to its canonical form, and that form. It is shown as the program shows it.
#[derive(Clone, Debug, PartialEq, Eq, Hash)]
pub struct Explanation {
    /// The steps, in their order.
    pub steps: Vec<Step>,
    /// The canonical text.
    pub canonical: String,
}

impl fmt::Display for Explanation {
    fn fmt(&self, f: &mut fmt::Formatter<'_>) -> fmt::Result {
        self.steps.iter().try_for_each(|step| writeln!(f, "{step}"))?;
        write!(f, "= {}", self.canonical)
    }
}
