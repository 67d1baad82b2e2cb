//! Checks of the second implementation by the laws that its runs must keep.

use crate::cases::{self, Random};
use crate::second::{AnyCase, Arithmetic, Case, Layer, PlannedCase, Run};

/// With so many tiles at most, every lawful order is tried.
const TILES_IN_ALL_ORDERS: usize = 5;
const RANDOM_ORDERS: usize = 4;

#[derive(Default)]
pub struct Tally {
    pub refused_cases: usize,
    pub calls: usize,
    pub refused_calls: usize,
}

impl Tally {
    /// Checks one case; a case that is refused is only counted.
    pub fn check(&mut self, file: &[u8], random: &mut Random) -> Result<(), String> {
        match AnyCase::read(file) {
            Ok(AnyCase::Doubles(case)) => self.check_case(&case, random),
            Ok(AnyCase::Minutes(case)) => self.check_case(&case, random),
            Err(_) => {
                self.refused_cases += 1;
                Ok(())
            }
        }
    }

    fn check_case<N: Arithmetic>(
        &mut self,
        case: &Case<N>,
        random: &mut Random,
    ) -> Result<(), String> {
        let opened = PlannedCase::of(case);
        if let Err(fault) = &opened
            && fault.layer == Layer::Plan
        {
            return Err(format!("the grown tiles do not open: {fault}"));
        }
        let Some(planned) = opened.ok().filter(|planned| planned.begin().is_ok()) else {
            self.refused_cases += 1;
            return Ok(());
        };
        let law = Law::of(&planned);
        for order in lawful_orders(&planned.plan.wait_words, random) {
            law.check_lawful_order(&order)?;
        }
        let calls = cases::tile_calls(random, &planned.plan.wait_words);
        self.calls += calls.len();
        self.refused_calls += law.check_calls(&calls)?;
        Ok(())
    }
}

fn lawful_orders(wait_words: &[u64], random: &mut Random) -> Vec<Vec<u8>> {
    if wait_words.len() <= TILES_IN_ALL_ORDERS {
        return all_lawful_orders(wait_words, 0);
    }
    let rising = (0..wait_words.len() as u8).collect();
    let drawn = (0..RANDOM_ORDERS).map(|_| cases::lawful_order(random, wait_words));
    std::iter::once(rising).chain(drawn).collect()
}

fn all_lawful_orders(wait_words: &[u64], done: u64) -> Vec<Vec<u8>> {
    if done.count_ones() as usize == wait_words.len() {
        return vec![Vec::new()];
    }
    let first_tiles = cases::ready_tiles(wait_words, done).into_iter();
    first_tiles
        .flat_map(|tile| {
            let rests = all_lawful_orders(wait_words, done | 1 << tile);
            rests
                .into_iter()
                .map(move |rest| [vec![tile], rest].concat())
        })
        .collect()
}

/// The law of runs for one case: the plain values after every sweep.
struct Law<'p, N> {
    planned: &'p PlannedCase<N>,
    plain: Vec<Vec<String>>,
}

impl<'p, N: Arithmetic> Law<'p, N> {
    fn of(planned: &'p PlannedCase<N>) -> Self {
        let plain = planned.system.plain_values(planned.sizes.sweeps);
        Law {
            planned,
            plain: plain.iter().map(|values| bits(values)).collect(),
        }
    }

    fn begin(&self) -> Run<'p, N> {
        self.planned.begin().expect("the case is not refused")
    }

    fn check_lawful_order(&self, order: &[u8]) -> Result<(), String> {
        let mut run = self.begin();
        for &tile in order {
            run.call(tile)
                .map_err(|fault| format!("lawful order {order:?}: tile {tile} {fault}"))?;
        }
        if self.plain.last() != Some(&bits(&run.values)) {
            return Err(format!(
                "lawful order {order:?} gives other values than the plain sweep"
            ));
        }
        let points = self.planned.sizes.rows * self.planned.sizes.sweeps;
        if run.updated != points {
            return Err(format!(
                "lawful order {order:?} updates {} of {points} points",
                run.updated
            ));
        }
        Ok(())
    }

    /// Checks the values after every call and answers how many were refused.
    fn check_calls(&self, calls: &[u8]) -> Result<usize, String> {
        let mut run = self.begin();
        let mut refused = 0;
        for &tile in calls {
            let earlier = (bits(&run.values), run.done, run.updated);
            if run.call(tile).is_err() {
                refused += 1;
                if (bits(&run.values), run.done, run.updated) != earlier {
                    return Err(format!(
                        "calls {calls:?}: the refused call of {tile} changes the run"
                    ));
                }
            }
            if bits(&run.values) != self.lawful_values(run.done) {
                return Err(format!(
                    "calls {calls:?}: after tile {tile} the law is broken"
                ));
            }
        }
        Ok(refused)
    }

    fn lawful_values(&self, done: u64) -> Vec<String> {
        let rows = 0..self.planned.sizes.rows;
        rows.map(|row| self.plain[self.planned.plan.sweeps_done(row, done)][row].clone())
            .collect()
    }
}

fn bits<N: Arithmetic>(values: &[N]) -> Vec<String> {
    values.iter().map(|value| value.bits()).collect()
}
