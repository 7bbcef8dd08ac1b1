//! Openings: a ticket or a refusal, and no buffer written.

use super::Run;
use super::block_case::{BlockCase, refusals};
use crate::difference::{Outcome, same};
use crate::lent::Lent;
use crate::mizdrek::{self, Ticket};

/// What the caller's ticket holds before: nothing that an opening may leave there.
const BEFORE: Ticket =
    Ticket { w: 77, h: usize::MAX, column_kind: 9, row_kind: 8, columns: 0x5a5a_5a5a, rows: 0xa5a5_a5a5 };

pub fn compare(run: &mut Run) -> Outcome {
    refusals(run, compare_case)?;
    for _ in 0..run.count {
        let case = BlockCase::any(&mut run.random);
        compare_case(run, &case)?;
    }
    Ok(())
}

fn compare_case(run: &mut Run, case: &BlockCase) -> Outcome {
    run.case();
    compare_call(case).map_err(|d| d.of("mizdrek_open", &case.inputs()))
}

fn compare_call(case: &BlockCase) -> Outcome {
    let residuals = Lent::new(&case.residuals);
    let scratch = Lent::new(&case.scratch);
    let output = Lent::new(&case.output);
    let mut ticket = BEFORE;
    let answer =
        mizdrek::open(case.size, case.kinds, residuals.read(), scratch.read(), output.read(), &mut ticket);
    let expected = case.expected();
    same("the answer", expected.map(|_| 0), answer)?;
    same("the ticket", if expected.is_ok() { opened(case) } else { BEFORE }, ticket)?;
    residuals.holds("residuals", &case.residuals)?;
    scratch.holds("scratch", &case.scratch)?;
    output.holds("output", &case.output)
}

/// The ticket of an accepted opening.
pub fn opened(case: &BlockCase) -> Ticket {
    let ((w, h), [column_kind, row_kind]) = (case.size, case.kinds);
    Ticket { w, h, column_kind, row_kind, columns: 0, rows: 0 }
}
