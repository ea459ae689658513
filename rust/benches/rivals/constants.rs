//! Constants: one walk of the residues modulo d. In a residue the device's error gains the same amount from each member to
//! the next, so its gap to a difference says how many periods it takes. A division is made only where a residue needs
//! fewer periods than all before it.

use ovenquill::{Constants, CLAIM_BOUNDS, SEARCH_ENDS};

const LEAST: Constants = Constants::LEAST;
const LARGEST: Constants = Constants::LARGEST;

#[inline(always)]
fn allowed(q: &Constants) -> bool {
    (LEAST.a..=LARGEST.a).contains(&q.a)
        && (LEAST.b..=LARGEST.b).contains(&q.b)
        && (LEAST.d..=LARGEST.d).contains(&q.d)
        && (LEAST.m..=LARGEST.m).contains(&q.m)
        && (LEAST.c..=LARGEST.c).contains(&q.c)
        && (LEAST.k..=LARGEST.k).contains(&q.k)
        && (LEAST.t..=LARGEST.t).contains(&q.t)
}

/// The least difference below `end`; `end` if there is none.
fn least_difference(q: &Constants, end: i64) -> i64 {
    let gain = q.m * q.d - q.a * (1 << q.k);
    if gain >= 0 {
        walk::<true>(q, gain, end)
    } else {
        walk::<false>(q, -gain, end)
    }
}

/// The same, where each period brings the device's quotient `gain` nearer to a difference above the exact quotient, or
/// below it.
#[inline(always)]
fn walk<const ABOVE: bool>(q: &Constants, gain: i64, end: i64) -> i64 {
    let &Constants { a, b, d, m, c, k, t } = q;
    if end == 0 {
        return 0;
    }
    let mut exact = b / d;
    let mut rest = b % d;
    let (whole, part) = (a / d, a % d);
    let mut device = c;
    // The fewest periods so far, the residue that needs them, and the gap that needs fewer.
    let mut periods = (end - 1) / d + 1;
    let mut residue = 0;
    let mut within = gain.saturating_mul(periods - 1);
    for r in 0..d.min(end) {
        if (device >> k).abs_diff(exact) > t as u64 {
            return r;
        }
        let gap = if ABOVE { ((exact + t + 1) << k) - device } else { device - ((exact - t) << k) + 1 };
        if gap <= within {
            periods = (gap + gain - 1) / gain;
            residue = r;
            within = gain * (periods - 1);
        }
        exact += whole;
        rest += part;
        if rest >= d {
            rest -= d;
            exact += 1;
        }
        device += m;
    }
    (residue + d * periods).min(end)
}

#[inline(never)]
pub unsafe extern "C" fn first_difference(a: i64, b: i64, d: i64, m: i64, c: i64, k: i64, t: i64, end: i64) -> i64 {
    let q = Constants { a, b, d, m, c, k, t };
    if !allowed(&q) || !(*SEARCH_ENDS.start()..=*SEARCH_ENDS.end()).contains(&end) {
        return -9;
    }
    least_difference(&q, end)
}

#[inline(never)]
pub unsafe extern "C" fn check_bound(
    a: i64,
    b: i64,
    d: i64,
    m: i64,
    c: i64,
    k: i64,
    t: i64,
    bound: i64,
    least: *mut i64,
) -> i64 {
    let q = Constants { a, b, d, m, c, k, t };
    if !allowed(&q) || !(*CLAIM_BOUNDS.start()..=*CLAIM_BOUNDS.end()).contains(&bound) {
        return -9;
    }
    let n = least_difference(&q, bound + 1);
    if n < bound {
        least.write(n);
        -10
    } else if n == bound {
        0
    } else {
        -11
    }
}
