//! Histories of both rooms on one plane, from its making on.

use super::LEAST;
use super::any_call::any_call;
use super::frame::Frame;
use super::tally::Tally;
use crate::check::Run;
use crate::difference::Outcome;

pub fn compare(run: &mut Run) -> Outcome {
    let mut tally = Tally::default();
    let end = run.cases() + (run.count / 2).max(LEAST);
    while run.cases() < end {
        history(run, &mut tally)?;
    }
    tally.compare()
}

/// Plays one random history.
fn history(run: &mut Run, tally: &mut Tally) -> Outcome {
    let mut frame = Frame::any(&mut run.random);
    for _ in 0..run.random.below(240) {
        run.case();
        let before = frame.record.rules;
        let call = any_call(&mut run.random, &before);
        let answer = frame.step(&call)?;
        tally.note(&before, &call, answer);
    }
    frame.finish()
}
