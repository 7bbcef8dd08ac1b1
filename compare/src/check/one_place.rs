//! One coefficient at a time, against a scan of one entry.

use super::Run;
use super::quant_case::{at_threshold, bad_coefficient, good_coefficient};
use crate::difference::{Outcome, same};
use crate::lent::Lent;
use crate::mizdrek::{self, Settings};
use crate::oracle;
use crate::random::Random;
use crate::rules::levels;
use crate::settings::{bad_settings, bad_step, good_settings, good_step};

struct Case {
    step: u32,
    settings: Settings,
    coefficient: i32,
}

pub fn compare(run: &mut Run) -> Outcome {
    for _ in 0..run.count.max(1000) {
        run.case();
        let case = any(&mut run.random);
        let Case { step, settings, coefficient } = &case;
        case.compare().map_err(|d| {
            d.of(
                "mizdrek_quantize_one",
                &[("settings", settings), ("step", step), ("coefficient", coefficient)],
            )
        })?;
    }
    Ok(())
}

fn any(random: &mut Random) -> Case {
    let coarse = random.below(21);
    let coefficient = good_coefficient(random, coarse);
    let mut case = Case { step: good_step(random), settings: good_settings(random), coefficient };
    match random.below(9) {
        0 => case.step = bad_step(random),
        1 => case.settings = bad_settings(random),
        2 => {}
        3 => halfway(random, &mut case),
        _ => case.settings = at_threshold(random, case.step, case.settings, coefficient),
    }
    if random.once_in(9) {
        case.coefficient = bad_coefficient(random);
    }
    case
}

/// A magnitude halfway between whole numbers, or next to it, rounded with no dead zone.
fn halfway(random: &mut Random, case: &mut Case) {
    case.step = 2 << random.below(12);
    case.coefficient = (2 * random.within(-200, 200) as i32 + 1) * (case.step / 2) as i32;
    let factor = random.pick(&[1.0, 1f32.next_up(), 1f32.next_down()]);
    let dead_zone = random.pick(&[0.5, 0.5f32.next_down(), 0.0]);
    case.settings = Settings { factor, threshold: 0.0, dead_zone };
}

impl Case {
    fn compare(&self) -> Outcome {
        let before = [f32::from_bits(0x7fc1_2345), f32::from_bits(0xdead_beef)];
        let mut level = Lent::new(&before[..1]);
        let mut magnitude = Lent::new(&before[1..]);
        let answer = mizdrek::quantize_one(
            self.settings,
            self.step,
            self.coefficient,
            &mut level.write()[0],
            &mut magnitude.write()[0],
        );
        if let Err(refusal) = levels::one(self.step, self.settings, self.coefficient) {
            same("the answer", Err(refusal), answer)?;
            level.holds("level", &before[..1])?;
            return magnitude.holds("magnitude", &before[1..]);
        }
        let written = oracle::levels(4, self.step, self.settings, &[self.coefficient], &[0]);
        let kept = written.1[0] >= self.settings.threshold;
        same("the answer", Ok(usize::from(kept)), answer)?;
        level.holds("level", &written.0)?;
        magnitude.holds("magnitude", &written.1)
    }
}
