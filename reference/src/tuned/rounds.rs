//! Earliest times, counted from the written starts.
//!
//! Counted so, an order from one step to another demands the distance of their two points, plus 1.
//! The written starts obey every order of a sound job, so no step is raised past 0, and where
//! there is no order nothing can be demanded.

use super::form::{Steps, STEPS};
use super::nearest::{bits, Nearest, FAR};

/// Up to so many orders from a step, going from one to the next costs less than going over all
/// steps at once.
const FEW: u32 = 12;

pub struct Earliest {
    pub times: [i32; STEPS],
    pub rounds: u32,
}

pub fn earliest(steps: &Steps, nearest: &Nearest, limits: &[i32; STEPS]) -> Earliest {
    let mut times = std::array::from_fn(|step| limits[step] - steps.starts[step]);
    let (mut rounds, mut raised) = (0, u64::MAX);
    while raised != 0 && steps.count > 0 {
        let before = times;
        raise(&mut times, &before, nearest, raised);
        raised = (0..steps.count)
            .filter(|&step| times[step] != before[step])
            .fold(0, |raised, step| raised | 1 << step);
        rounds += 1;
    }
    for (time, start) in times.iter_mut().zip(&steps.starts) {
        *time += start;
    }
    Earliest { times, rounds }
}

/// One round. Only what the round before raised can demand anything new.
fn raise(times: &mut [i32; STEPS], before: &[i32; STEPS], nearest: &Nearest, raised: u64) {
    for first in bits(raised) {
        let (after, row) = (nearest.after[first], &nearest.rows[first]);
        let demanded = |nearness: i32| before[first] + nearness - FAR + 1;
        if after.count_ones() < FEW {
            for second in bits(after) {
                times[second] = times[second].max(demanded(row[second]));
            }
        } else {
            for (time, &nearness) in times.iter_mut().zip(row) {
                *time = (*time).max(demanded(nearness));
            }
        }
    }
}
