//! Times of several sides that do the same work, measured in turns.

use crate::clock;

/// The least nanoseconds of one measurement.
pub const LEAST: f64 = 2e6;
/// The fewest and the most rounds.
pub const ROUNDS: [usize; 2] = [7, 15];
/// After this many nanoseconds no round starts but the fewest.
const BUDGET: f64 = 5e8;

/// One call of a side.
pub type Side<'a> = Box<dyn FnMut() + 'a>;

/// The nanoseconds of a call of each side, the median over the rounds. A round takes the sides one
/// after the other, each with as many calls as can be measured.
pub fn medians(sides: &mut [Side]) -> Vec<f64> {
    let calls: Vec<usize> = sides.iter_mut().map(calls).collect();
    let mut times = vec![Vec::new(); sides.len()];
    let end = clock::now() + BUDGET;
    for round in 0..ROUNDS[1] {
        if round >= ROUNDS[0] && clock::now() > end {
            break;
        }
        for ((side, &calls), times) in sides.iter_mut().zip(&calls).zip(&mut times) {
            times.push(time(side, calls));
        }
    }
    times.into_iter().map(median).collect()
}

/// The calls that take the least time together. A few are tried, since the first are slower.
fn calls(side: &mut Side) -> usize {
    let mut shortest = f64::INFINITY;
    for _ in 0..5 {
        shortest = shortest.min(time(side, 1));
        if shortest > LEAST {
            break;
        }
    }
    (LEAST / shortest).ceil() as usize
}

/// The nanoseconds of one call, over several.
pub fn time(side: &mut Side, calls: usize) -> f64 {
    let start = clock::now();
    for _ in 0..calls {
        side();
    }
    (clock::now() - start) / calls as f64
}

fn median(mut times: Vec<f64>) -> f64 {
    times.sort_by(f64::total_cmp);
    let middle = times.len() / 2;
    match times.len() % 2 {
        0 => (times[middle - 1] + times[middle]) / 2.0,
        _ => times[middle],
    }
}
