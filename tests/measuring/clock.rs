//! Seconds by the clock.
use crate::case::Case;
use crate::chain::{self, Chain, Turns};
use crate::work::{Work, whos};
use std::hint::black_box;
use std::time::{Duration, Instant};
use sulyterom::WORK_WORDS;

/// Rounds in which all are timed, one behind the other: as many as there is time for, and no fewer than this.
const ROUNDS: usize = 7;
const TIME: Duration = Duration::from_millis(200);
/// Turns in a row in each round, so that one finds its own tables in the cache.
const TURNS: usize = 3;

/// The quickest turn of each who has the task.
pub fn seconds(case: &Case) -> Vec<f64> {
    let (mut work, whos) = (Work::new(case), whos(case.task));
    let mut quickest = vec![f64::INFINITY; whos.len()];
    time(&mut quickest, |at| work.turn(whos[at]));
    quickest
}

/// The quickest turn of loading a chain and of asking about it.
pub fn chain_seconds(chain: &Chain) -> [f64; chain::TASKS] {
    let mut turns = Turns::new(chain);
    let mut quickest = [f64::INFINITY; chain::TASKS];
    time(&mut quickest, |task| turns.turn(task));
    quickest
}

/// The quickest clearing of a work area by itself.
pub fn clearing_seconds() -> f64 {
    let mut area = vec![0; WORK_WORDS];
    let mut quickest = [f64::INFINITY];
    time(&mut quickest, |_| black_box::<&mut [u32]>(&mut area).fill(0));
    quickest[0]
}

/// Finds the quickest turn of each of several.
fn time(quickest: &mut [f64], mut turn: impl FnMut(usize)) {
    let start = Instant::now();
    let mut rounds = 0;
    while rounds < ROUNDS || start.elapsed() < TIME {
        for (at, best) in quickest.iter_mut().enumerate() {
            for _ in 0..TURNS {
                let from = Instant::now();
                turn(at);
                *best = best.min(from.elapsed().as_secs_f64());
            }
        }
        rounds += 1;
    }
}
