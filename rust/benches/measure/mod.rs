//! How a line is measured and shown.
//!
//! Both of a pair have the same signature and get the same inputs and buffers in the same run. First they are compared: on
//! every input, each with buffers and places of its own that were cleared, what they return and all that they wrote must
//! be the same. Then, in each of many rounds, they take turns on every part of the inputs, called through a pointer, so
//! that neither is inlined. The time of a part is its median over the rounds, and the time of all the inputs is the sum
//! over the parts: a part is short, so that what else the machine does meanwhile falls on few of them.

pub mod call;

use call::Call;
use std::hint::black_box;
use std::time::Instant;

pub const ROUNDS: usize = 31;
/// The parts that the inputs of most lines are done in.
pub const PARTS: usize = 64;

/// The seconds that each part took in each round.
type Times = Vec<[f64; ROUNDS]>;

/// The number that so many of a hundred are below.
pub fn percentile(times: &[f64], percent: usize) -> f64 {
    let mut sorted = times.to_vec();
    sorted.sort_by(f64::total_cmp);
    sorted[(sorted.len() - 1) * percent / 100]
}

/// The sum over the parts of such a percentile over the rounds.
fn total(times: &Times, percent: usize) -> f64 {
    times.iter().map(|rounds| percentile(rounds, percent)).sum()
}

/// The sum over the parts in one round. A part that was interrupted counts at most twice its median.
fn in_round(times: &Times, round: usize) -> f64 {
    times.iter().map(|rounds| rounds[round].min(2.0 * percentile(rounds, 50))).sum()
}

/// A time for one call, in the unit that suits it.
pub fn shown(seconds: f64) -> String {
    let ns = seconds * 1e9;
    if ns < 1000.0 {
        format!("{ns:.2} ns")
    } else {
        format!("{:.2} µs", ns / 1000.0)
    }
}

/// A ratio with three digits behind the point, or more where it is small.
fn shown_ratio(ratio: f64) -> String {
    if ratio < 0.01 {
        format!("{ratio:.5}")
    } else {
        format!("{ratio:.3}")
    }
}

/// The inputs of a line, in parts of equal length.
pub struct Inputs<'a, T> {
    pub list: &'a [T],
    pub parts: usize,
    /// How many of what is counted are in one input: 1, or the length of a list.
    pub units: usize,
}

impl<'a, T> Inputs<'a, T> {
    /// Inputs that count as one each.
    pub fn of(list: &'a [T]) -> Inputs<'a, T> {
        Inputs { list, parts: PARTS, units: 1 }
    }

    fn part(&self, part: usize) -> &'a [T] {
        let length = self.list.len() / self.parts;
        &self.list[part * length..(part + 1) * length]
    }

    /// How many are counted in all parts.
    fn counted(&self) -> f64 {
        (self.list.len() / self.parts * self.parts * self.units) as f64
    }
}

/// Ends the run where the two answer differently.
fn compare<C: Call>(what: &str, inputs: &[C::Input], ours: C, rival_name: &str, rival: C) {
    for (place, input) in inputs.iter().enumerate() {
        let (mut our_lent, mut rival_lent) = (C::cleared(input), C::cleared(input));
        let (our_answer, rival_answer) = (ours.call(input, &mut our_lent), rival.call(input, &mut rival_lent));
        assert_eq!(our_answer, rival_answer, "{what}: ours and {rival_name} at input {place}");
        assert!(our_lent == rival_lent, "{what}: ours and {rival_name} write differently at input {place}");
    }
}

/// Calls on the inputs of a part, and answers the seconds that it took.
fn timed<C: Call>(call: C, inputs: &[C::Input], lent: &mut C::Lent) -> f64 {
    let call = black_box(call);
    let start = Instant::now();
    let mut sum = 0i64;
    for input in inputs {
        sum = sum.wrapping_add(call.call(input, lent)).wrapping_add(C::sum(lent));
    }
    black_box(sum);
    start.elapsed().as_secs_f64()
}

/// Compares and measures ours with each rival, and prints a line for each: the ratio of the times, the spread of the ratios
/// of the single rounds, and the best time of each for one call.
pub fn line<C: Call>(what: &str, inputs: &Inputs<C::Input>, ours: C, rivals: &[(&str, C)]) {
    for &(rival_name, rival) in rivals {
        compare(what, inputs.list, ours, rival_name, rival);
        let mut lent = C::cleared(&inputs.list[0]);
        let mut our_times: Times = vec![[0.0; ROUNDS]; inputs.parts];
        let mut rival_times = our_times.clone();
        for round in 0..ROUNDS {
            for part in 0..inputs.parts {
                for turn in 0..2 {
                    let (call, times) =
                        if (round + part) % 2 == turn { (ours, &mut our_times) } else { (rival, &mut rival_times) };
                    times[part][round] = timed(call, inputs.part(part), &mut lent);
                }
            }
        }
        let ratios: Vec<f64> =
            (0..ROUNDS).map(|round| in_round(&our_times, round) / in_round(&rival_times, round)).collect();
        println!(
            "| {what} | {rival_name} | {} | {} to {} | {} to {} | {} | {} |",
            shown_ratio(total(&our_times, 50) / total(&rival_times, 50)),
            shown_ratio(percentile(&ratios, 0)),
            shown_ratio(percentile(&ratios, 100)),
            shown_ratio(percentile(&ratios, 25)),
            shown_ratio(percentile(&ratios, 75)),
            shown(total(&our_times, 0) / inputs.counted()),
            shown(total(&rival_times, 0) / inputs.counted()),
        );
    }
}

/// Measures ours where there is no rival, and prints a line with its best time for one call.
pub fn line_alone<C: Call>(what: &str, inputs: &Inputs<C::Input>, ours: C) {
    let mut lent = C::cleared(&inputs.list[0]);
    let mut times: Times = vec![[0.0; ROUNDS]; inputs.parts];
    for round in 0..ROUNDS {
        for (part, times) in times.iter_mut().enumerate() {
            times[round] = timed(ours, inputs.part(part), &mut lent);
        }
    }
    println!("| {what} | none | | | | {} | |", shown(total(&times, 0) / inputs.counted()));
}

/// The seconds that each call takes: the best of five passes over all the inputs, so that a slow one is the call's and not
/// the machine's.
pub fn best_times<C: Call>(call: C, inputs: &[C::Input]) -> Vec<f64> {
    let mut best = vec![f64::INFINITY; inputs.len()];
    for _ in 0..5 {
        for (best, input) in best.iter_mut().zip(inputs) {
            let mut lent = C::cleared(input);
            *best = best.min(timed(call, std::slice::from_ref(input), &mut lent));
        }
    }
    best
}
