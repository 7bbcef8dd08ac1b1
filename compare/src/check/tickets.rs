//! Blocks in batches: openings, lists of batches and previews from an opening, and both on made-up tickets.

use super::block_case::BlockCase;
use super::call::{Call, any_batch};
use super::claim::Claim;
use super::{Run, made_up, openings};
use crate::difference::{Outcome, same};
use crate::lent::Lent;
use crate::mizdrek::{self, Ticket};
use crate::oracle;
use crate::random::Random;
use crate::rules::batch::Batch;
use crate::rules::transform::RESIDUAL_LIMIT;
use crate::samples::residuals;

pub fn compare(run: &mut Run) -> Outcome {
    openings::compare(run)?;
    let end = run.cases() + run.count;
    while run.cases() < end {
        list(run)?;
    }
    made_up::compare(run)
}

/// Plays one random list on one random block.
fn list(run: &mut Run) -> Outcome {
    let random = &mut run.random;
    let (size, kinds) = random.pick(&oracle::blocks());
    let more = random.pick(&[0, 7]);
    let residuals = residuals(random, size.0 * size.1 + more, RESIDUAL_LIMIT);
    let opening = BlockCase::roomy(random, size, kinds, residuals);
    let batches = any_list(random, size);
    let calls = with_previews(random, size, &batches);
    play(run, &opening, &calls).map_err(|d| {
        let mut inputs = opening.inputs().to_vec();
        inputs.push(("calls", &calls));
        d.of("a list of batches and previews", &inputs)
    })
}

fn play(run: &mut Run, opening: &BlockCase, calls: &[Call]) -> Outcome {
    let claim = Claim::new(opening, calls);
    let given = Lent::new(&opening.residuals);
    let mut scratch = Lent::new(&opening.scratch);
    let mut output = Lent::new(&opening.output);
    let mut ticket = Ticket::default();
    let answer =
        mizdrek::open(opening.size, opening.kinds, given.read(), scratch.read(), output.read(), &mut ticket);
    same("the opening's answer", Ok(0), answer)?;
    for (i, call) in calls.iter().enumerate() {
        run.case();
        let mut preview = Lent::new(&call.preview_before());
        let answer = call.make(&mut ticket, &given, &mut scratch, &mut output, &mut preview);
        same(&format!("the answer of call {i}"), claim.outcome(i), answer)?;
        let marks = Ticket {
            columns: claim.covered(false, i + 1),
            rows: claim.covered(true, i + 1),
            ..openings::opened(opening)
        };
        same(&format!("the ticket after call {i}"), marks, ticket)?;
        scratch.holds(&format!("scratch after call {i}"), &claim.scratch(i + 1))?;
        output.holds(&format!("output after call {i}"), &claim.output(i + 1))?;
        preview.holds(&format!("preview after call {i}"), &claim.preview(i))?;
    }
    given.holds("residuals", &opening.residuals)
}

/// A list that covers most lines, with repeats, bad batches and rows out of turn among them.
fn any_list(random: &mut Random, (w, h): (usize, usize)) -> Vec<Batch> {
    let mut list = Vec::new();
    if !random.once_in(5) {
        list.extend(cover(random, false, w));
    }
    if !random.once_in(3) {
        list.extend(cover(random, true, h));
    }
    for _ in 0..random.below(12) {
        let place = random.below(list.len() + 1);
        list.insert(place, any_batch(random));
    }
    if random.once_in(6) && !list.is_empty() {
        let place = random.below(list.len());
        list.remove(place);
    }
    list
}

/// The list with previews at any places, most of them of its own batches; at times with none.
fn with_previews(random: &mut Random, size: (usize, usize), batches: &[Batch]) -> Vec<Call> {
    let mut calls: Vec<Call> = batches.iter().map(|&batch| Call::run(batch)).collect();
    let previews = if random.once_in(4) { 0 } else { random.below(batches.len() + 6) };
    for _ in 0..previews {
        let of_list = !batches.is_empty() && !random.once_in(3);
        let batch = if of_list { random.pick(batches) } else { any_batch(random) };
        let preview = Call::preview(random, batch, size);
        calls.insert(random.below(calls.len() + 1), preview);
    }
    calls
}

/// Batches that cover `lines` lines once, in any order.
fn cover(random: &mut Random, row: bool, lines: usize) -> Vec<Batch> {
    let mut list: Vec<Batch> = Vec::new();
    let mut start = 0;
    while start < lines {
        let batch = Batch { row, start, count: random.pick(&[1, 4, 8]) };
        if batch.within(lines) {
            list.insert(random.below(list.len() + 1), batch);
            start += batch.count;
        }
    }
    list
}
