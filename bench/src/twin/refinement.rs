//! Rounds of refinement: correct and judge until the case is met, or its rounds are used and the best trial is kept.

use super::elimination::Elimination;
use super::judging::Judgement;
use super::reading::{Case, MOST_ANSWER};
use super::{Refusal, MOST_TANKS, OUTSIDE_RANGE};

/// An answer with its judgement.
#[derive(Clone)]
pub struct Answer {
    pub figures: [i64; MOST_TANKS],
    pub judgement: Judgement,
    pub rounds_used: u8,
}

impl Answer {
    /// The trial that the case brings, or zero, from which the rounds start.
    pub fn start(case: &Case) -> Self {
        Answer {
            figures: case.trial,
            judgement: Judgement::of(case, case.trial()),
            rounds_used: 0,
        }
    }

    /// Each round starts from the residuals with which the round before it was judged. Where no trial is met, the first of those with the
    /// least factor stays.
    // Inlined with its steps, as a lone caller's would be, so that soundings do not slow the record down.
    #[inline(always)]
    pub fn refine(&mut self, case: &Case) -> Result<(), Refusal> {
        let mut elimination = Elimination::start(case);
        elimination.finish()?;
        let mut best: Option<Answer> = None;
        for round in 1..=case.rounds {
            let correction = elimination.correction(&self.judgement.residuals)?;
            self.add(&correction[..case.n])?;
            self.judgement.judge(case, &self.figures[..case.n]);
            self.rounds_used = round;
            if self.judgement.is_met() {
                return Ok(());
            }
            if self.beats(&mut best, case.n) {
                if round == case.rounds {
                    return Ok(());
                }
                // The next round changes this trial, so that it is kept beside it.
                best = Some(self.clone());
            }
        }
        if let Some(best) = best {
            self.figures = best.figures;
            self.judgement = best.judgement;
        }
        Ok(())
    }

    /// Whether this trial has a smaller factor than the best so far, if there is one.
    fn beats(&mut self, best: &mut Option<Answer>, n: usize) -> bool {
        let Some(best) = best else {
            return true;
        };
        let factor = self.judgement.deciding(n).factor;
        best.judgement.deciding(n).factor.exceeds(&factor)
    }

    fn add(&mut self, correction: &[i64]) -> Result<(), Refusal> {
        for (y, d) in self.figures.iter_mut().zip(correction) {
            *y += d;
            if y.abs() > MOST_ANSWER {
                return Err(OUTSIDE_RANGE);
            }
        }
        Ok(())
    }
}
