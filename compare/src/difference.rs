//! A place where the two sides differ, with all that is needed to see it again.

use std::fmt::{self, Debug, Display};

pub struct Difference {
    call: String,
    inputs: Vec<(String, String)>,
    place: String,
    expected: String,
    ours: String,
}

pub type Outcome = Result<(), Difference>;

/// An argument's name and value.
pub type Input<'a> = (&'a str, &'a dyn Debug);

impl Difference {
    /// Names the call and all its arguments.
    pub fn of(mut self, call: &str, inputs: &[Input]) -> Difference {
        self.call = call.to_string();
        self.inputs = inputs.iter().map(|(name, value)| (name.to_string(), format!("{value:?}"))).collect();
        self
    }

    fn at(place: String, expected: &dyn Debug, ours: &dyn Debug) -> Difference {
        Difference {
            call: String::new(),
            inputs: Vec::new(),
            place,
            expected: format!("{expected:?}"),
            ours: format!("{ours:?}"),
        }
    }
}

impl Display for Difference {
    fn fmt(&self, out: &mut fmt::Formatter) -> fmt::Result {
        writeln!(out, "DIFFERENCE in {}", self.call)?;
        for (name, value) in &self.inputs {
            writeln!(out, "  {name} = {value}")?;
        }
        writeln!(out, "  where: {}", self.place)?;
        writeln!(out, "  expected: {}", self.expected)?;
        write!(out, "  ours:     {}", self.ours)
    }
}

/// Compares one value.
pub fn same<T: PartialEq + Debug>(what: &str, expected: T, ours: T) -> Outcome {
    if expected == ours {
        return Ok(());
    }
    Err(Difference::at(what.to_string(), &expected, &ours))
}

/// Compares two lists and names the first place where they differ.
pub fn same_list<T: PartialEq + Debug>(what: &str, expected: &[T], ours: &[T]) -> Outcome {
    if expected == ours {
        return Ok(());
    }
    let place = expected.iter().zip(ours).position(|(a, b)| a != b);
    let place = place.unwrap_or(expected.len().min(ours.len()));
    Err(Difference::at(format!("{what}, first at place {place}"), &expected, &ours))
}
