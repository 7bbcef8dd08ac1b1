//! Steps, single places, and scans.

use super::Run;
use super::quant_case::{QuantCase, bad_coefficient, floats};
use super::{one_place, scans};
use crate::av2;
use crate::difference::{Outcome, same};
use crate::lent::Lent;
use crate::mizdrek;
use crate::oracle::{self, SIDES};
use crate::random::Random;
use crate::settings::{bad_settings, bad_step};

pub fn compare(run: &mut Run) -> Outcome {
    steps(run)?;
    one_place::compare(run)?;
    plain_scans(run)?;
    refusals(run)?;
    for _ in 0..run.count {
        let case = QuantCase::any(&mut run.random);
        compare_case(run, &case)?;
    }
    Ok(())
}

fn steps(run: &mut Run) -> Outcome {
    let random: Vec<u32> = (0..100).map(|_| run.random.next() as u32).collect();
    for index in (0..=1000).chain([1 << 16, u32::MAX - 1, u32::MAX]).chain(random) {
        run.case();
        same("the step", av2::quant::qstep(index), mizdrek::qstep(index))
            .map_err(|d| d.of("mizdrek_qstep", &[("index", &index)]))?;
    }
    Ok(())
}

/// The places of whole blocks in order. The first has the width for its second entry, and so has the
/// last at width 32; the others are read by stride 32, also the one that begins 0, 1.
fn plain_scans(run: &mut Run) -> Outcome {
    for w in SIDES {
        for h in SIDES {
            let by_columns = (0..w * h).map(|i| (i % h * w + i / h) as u16).collect();
            let by_rows = (0..w * h).map(|i| i as u16).collect();
            let down_by_stride = (0..w * h).map(|i| (i / h * 32 + i % h) as u16).collect();
            let right_by_stride = (0..w * h).map(|i| (i % w * 32 + i / w) as u16).collect();
            for scan in [by_columns, by_rows, down_by_stride, right_by_stride] {
                let mut case = good(run, w);
                case.scan = scan;
                compare_case(run, &case)?;
            }
        }
    }
    Ok(())
}

/// A case that is accepted, with room for the longest scan and 1,024 coefficients.
fn good(run: &mut Run, width: usize) -> QuantCase {
    let random = &mut run.random;
    loop {
        let mut case = QuantCase::any(random);
        case.width = width;
        case.coefficients.resize(1024, -9);
        case.scan = scans::any_scan(random, width, 1024);
        case.scan.truncate(64);
        case.levels = floats(random, 1025);
        case.magnitudes = floats(random, 1025);
        if case.expected().is_ok() && case.scan.len() > 1 {
            return case;
        }
    }
}

/// Every argument good and bad, in all combinations.
fn refusals(run: &mut Run) -> Outcome {
    for width in [4, 8, 16, 32, 0, 5, 64, usize::MAX] {
        for lack in [[0, 0], [1, 0], [0, 1], [64, 64]] {
            faults(run, width, lack)?;
        }
    }
    Ok(())
}

/// Settings, scan and coefficients good and bad, in all combinations.
fn faults(run: &mut Run, width: usize, lack: [usize; 2]) -> Outcome {
    for setting_fault in 0..3 {
        for scan_fault in 0..4 {
            for coefficients_are_bad in [false, true] {
                let mut case = good(run, 8);
                let random = &mut run.random;
                case.width = width;
                spoil_settings(random, &mut case, setting_fault);
                spoil_scan(&mut case, scan_fault);
                if coefficients_are_bad {
                    case.coefficients.fill(bad_coefficient(random));
                }
                case.levels.truncate(case.scan.len().saturating_sub(lack[0]));
                case.magnitudes.truncate(case.scan.len().saturating_sub(lack[1]));
                compare_case(run, &case)?;
            }
        }
    }
    Ok(())
}

fn spoil_settings(random: &mut Random, case: &mut QuantCase, which: usize) {
    match which {
        0 => {}
        1 => case.step = bad_step(random),
        _ => case.settings = bad_settings(random),
    }
}

fn spoil_scan(case: &mut QuantCase, which: usize) {
    match which {
        0 => {}
        1 => case.scan.resize(1025, 0),
        2 => case.scan[0] = u16::MAX,
        _ => case.coefficients.truncate(8),
    }
}

fn compare_case(run: &mut Run, case: &QuantCase) -> Outcome {
    run.case();
    compare_call(case).map_err(|d| d.of("mizdrek_quantize_to_levels", &case.inputs()))
}

fn compare_call(case: &QuantCase) -> Outcome {
    let coefficients = Lent::new(&case.coefficients);
    let scan = Lent::new(&case.scan);
    let mut levels = Lent::new(&case.levels);
    let mut magnitudes = Lent::new(&case.magnitudes);
    let answer = mizdrek::quantize_to_levels(
        case.width,
        (case.step, case.settings),
        coefficients.read(),
        scan.read(),
        levels.write(),
        magnitudes.write(),
    );
    let expected = case.expected();
    same("the answer", expected, answer)?;
    coefficients.holds("coefficients", &case.coefficients)?;
    scan.holds("scan", &case.scan)?;
    let Ok(count) = expected else {
        levels.holds("levels", &case.levels)?;
        return magnitudes.holds("magnitudes", &case.magnitudes);
    };
    let written = oracle::levels(case.width, case.step, case.settings, &case.coefficients, &case.scan);
    levels.holds("levels", &[&written.0, &case.levels[count..]].concat())?;
    magnitudes.holds("magnitudes", &[&written.1, &case.magnitudes[count..]].concat())
}
