//! Constants: the search and the claim against a plain scan of every n, and, where the end is too far to scan,
//! against a walk of all residues that is held to the scan first (tests/support/plain.rs); and against document 01's rows.

mod support;

use ovenquill::{check_bound, first_difference, Constants, CLAIM_BOUNDS, SEARCH_ENDS};
use support::answer::answer;
use support::answer::Answer::{Refused, RefusedAt, Value};
use support::plain::{self, LARGEST, LAST_BOUND, LAST_END, LEAST};
use support::random::Random;

fn constants(a: i64, b: i64, d: i64, m: i64, c: i64, k: i64, t: i64) -> Constants {
    Constants { a, b, d, m, c, k, t }
}

/// Holds searches and claims around the least difference to it. `least` is the least difference below `end`, if any.
fn try_around(q: Constants, end: i64, least: Option<i64>) {
    let search = |end: i64| {
        let expected = Ok(least.filter(|&n| n < end));
        assert_eq!(first_difference(q, end), expected, "{q:?} below {end}");
    };
    let claim = |bound: i64| {
        assert_eq!(answer(check_bound(q, bound)), plain::judged(least, bound), "{q:?} at {bound}");
    };
    search(end);
    search(end / 2);
    if end > 0 {
        search(end - 1);
        claim(end - 1);
        claim(end / 2);
    }
    if let Some(n) = least {
        search(n);
        search(n + 1);
        claim(n);
        if n > 0 {
            claim(n - 1);
            claim(n / 2);
        }
        if n < LAST_BOUND {
            claim(n + 1);
        }
    }
}

/// Constants whose multiplier is the exact ratio's nearest, or one off, for a random ratio and offset, and with any tolerance.
fn near_exact(random: &mut Random, d_last: i64) -> Constants {
    let d = random.within(LEAST.d, d_last);
    let a = if random.within(0, 1) == 0 { 1 } else { random.of_any_size(LEAST.a, LARGEST.a) };
    let mut k = random.within(LEAST.k, LARGEST.k);
    // The largest shift that leaves the multiplier within its limit.
    while (a << k) / d >= LARGEST.m {
        k -= 1;
    }
    let m = (a << k) / d + random.within(0, 1);
    let any = random.within(LEAST.b, LARGEST.b);
    let b = random.choose(&[0, 0, 1, d.min(LARGEST.b) - 1, any]);
    let c = match random.within(0, 3) {
        0 => 0,
        1 => random.of_any_size(LEAST.c, LARGEST.c),
        _ => ((b << k) / d + random.within(-1, 1) * m).clamp(LEAST.c, LARGEST.c),
    };
    let any = random.within(LEAST.t, LARGEST.t);
    constants(a, b, d, m, c, k, random.choose(&[0, 0, 0, 1, any, any]))
}

/// Any allowed constants, small numbers as often as large ones.
fn any_allowed(random: &mut Random, d_last: i64) -> Constants {
    constants(
        random.of_any_size(LEAST.a, LARGEST.a),
        random.of_any_size(LEAST.b, LARGEST.b),
        random.of_any_size(LEAST.d, d_last),
        random.of_any_size(LEAST.m, LARGEST.m),
        random.of_any_size(LEAST.c, LARGEST.c),
        random.within(LEAST.k, LARGEST.k),
        random.of_any_size(LEAST.t, LARGEST.t),
    )
}

#[test]
fn limits_of_document_01() {
    assert_eq!(Constants::LEAST, LEAST);
    assert_eq!(Constants::LARGEST, LARGEST);
    assert_eq!(SEARCH_ENDS, 0..=LAST_END);
    assert_eq!(CLAIM_BOUNDS, 0..=LAST_BOUND);
}

#[test]
fn rows_of_document_01() {
    let rows = [
        (constants(1, 0, 10, 26, 0, 8, 0), Some(69)),
        (constants(1, 0, 10, 26, 0, 8, 1), Some(709)),
        (constants(1, 0, 10, 25, 0, 8, 0), Some(10)),
        (constants(5, 461, 153, 2141, 197913, 16, 0), Some(734)),
        (constants(1, 0, 1461, 2939745, 0, 32, 0), Some(28825529)),
        (constants(1, 0, 1461, 376287347, 0, 39, 0), None),
        (constants(1, 0, 146097, 963315389, 0, 47, 0), None),
        (constants(1, 0, 4, 1, 0, 2, 0), None),
        (constants(1, 0, 1, 1, 1, 0, 0), Some(0)),
    ];
    for (q, least) in rows {
        assert_eq!(first_difference(q, LAST_END), Ok(least), "{q:?}");
        assert_eq!(first_difference(q, 0), Ok(None), "{q:?}");
        try_around(q, LAST_END, least);
    }
    // After 69 was wrong, 70 to 78 are right again: a claim of 79 must still name 69.
    assert_eq!(answer(check_bound(rows[0].0, 69)), Value(()));
    assert_eq!(answer(check_bound(rows[0].0, 79)), RefusedAt(10, 69));
    assert_eq!(answer(check_bound(rows[0].0, 68)), Refused(11));
}

#[test]
fn references_agree_on_rows_of_document_01() {
    let scanned = |q: Constants| assert_eq!(plain::scan(q, 1000), plain::walk(q, 1000), "{q:?}");
    scanned(constants(1, 0, 10, 26, 0, 8, 0));
    scanned(constants(1, 0, 10, 26, 0, 8, 1));
    scanned(constants(1, 0, 10, 25, 0, 8, 0));
    scanned(constants(5, 461, 153, 2141, 197913, 16, 0));
    assert_eq!(plain::scan_by_steps(constants(1, 0, 1461, 2939745, 0, 32, 0), LAST_END), Some(28825529));
}

#[test]
fn row_1461_scanned_to_the_last_end() {
    let q = constants(1, 0, 1461, 376287347, 0, 39, 0);
    assert_eq!(Ok(plain::scan_by_steps(q, LAST_END)), first_difference(q, LAST_END));
}

#[test]
fn row_146097_scanned_to_the_last_end() {
    let q = constants(1, 0, 146097, 963315389, 0, 47, 0);
    assert_eq!(Ok(plain::scan_by_steps(q, LAST_END)), first_difference(q, LAST_END));
}

#[test]
fn small_constants_scanned() {
    // Every set of very small constants, and more ends than `try_around` has.
    for d in 1..=9 {
        for a in 1..=5 {
            for k in 0..=4 {
                for m in 0..=20 {
                    for (b, c) in [(0, 0), (0, 1), (1, 0), (3, 7), (9, 2), (1, 30)] {
                        for t in 0..=2 {
                            let q = constants(a, b, d, m, c, k, t);
                            let least = plain::scan(q, 60);
                            assert_eq!(plain::walk(q, 60), least, "{q:?}");
                            for end in [0, 1, 2, 7, 59, 60] {
                                try_around(q, end, least.filter(|&n| n < end));
                            }
                        }
                    }
                }
            }
        }
    }
}

/// Random constants with a divisor up to `d_last`, each scanned to a random end up to `last`.
fn try_random_scans(seed: u64, sets: usize, d_last: i64, last: i64) {
    let mut random = Random::new(seed);
    let mut found = 0;
    for set in 0..sets {
        let q = if set % 2 == 0 { near_exact(&mut random, d_last) } else { any_allowed(&mut random, d_last) };
        let end = random.within(0, last);
        let least = plain::scan_by_steps(q, end);
        if set % 16 == 0 {
            assert_eq!(plain::scan(q, end), least, "{q:?} below {end}");
            assert_eq!(plain::walk(q, end), least, "{q:?} below {end}");
        }
        found += usize::from(least.is_some());
        try_around(q, end, least);
    }
    assert!(found > sets / 10 && found < sets, "{found} differences in {sets} sets");
}

#[test]
fn a_million_random_sets_scanned() {
    try_random_scans(17, 1_000_000, 200, 2000);
}

#[test]
fn random_sets_with_larger_divisors_scanned() {
    try_random_scans(18, 10_000, 20_000, 200_000);
}

#[test]
fn random_sets_to_far_ends_walked() {
    let mut random = Random::new(19);
    for (d_last, sets) in [(100, 500_000), (3000, 100_000), (LARGEST.d, 800)] {
        for set in 0..sets {
            let q = if set % 8 == 0 { any_allowed(&mut random, d_last) } else { near_exact(&mut random, d_last) };
            let end = if set % 4 == 0 { random.of_any_size(0, LAST_END) } else { LAST_END };
            try_around(q, end, plain::walk(q, end));
        }
    }
}

#[test]
fn every_tolerance() {
    // Tenths whose multiplier is too large or too small, and two rows of document 01; each with the last tolerance to scan with.
    for (q, last_scanned) in [
        (constants(1, 0, 10, 26, 0, 8, 0), LARGEST.t),
        (constants(1, 0, 10, 25, 0, 8, 0), LARGEST.t),
        (constants(1, 0, 10, 6554, 0, 16, 0), 30),
        (constants(1, 0, 10, 6553, 0, 16, 0), 30),
        (constants(1, 0, 10, 104858, 0, 20, 0), 2),
        (constants(1, 0, 10, 104857, 0, 20, 0), 2),
        (constants(5, 461, 153, 2141, 197913, 16, 0), 30),
        (constants(1, 0, 1461, 2939745, 0, 32, 0), 0),
    ] {
        for t in LEAST.t..=LARGEST.t {
            let q = Constants { t, ..q };
            let least = plain::walk(q, LAST_END);
            if t <= last_scanned {
                assert_eq!(plain::scan_by_steps(q, LAST_END), least, "{q:?}");
            }
            try_around(q, LAST_END, least);
        }
    }
    assert_eq!(first_difference(constants(1, 0, 10, 6554, 0, 16, 30), LAST_END), Ok(Some(4931589)));
}

#[test]
fn all_limits_corners() {
    // Every combination of the least, the largest and, for some, a middle number.
    for d in [LEAST.d, 2, LARGEST.d - 1, LARGEST.d] {
        for a in [LEAST.a, LARGEST.a] {
            for b in [LEAST.b, LARGEST.b] {
                for m in [LEAST.m, 1, LARGEST.m] {
                    for c in [LEAST.c, LARGEST.c] {
                        for k in [LEAST.k, 1, 31, LARGEST.k] {
                            for t in [LEAST.t, LARGEST.t] {
                                let q = constants(a, b, d, m, c, k, t);
                                try_around(q, LAST_END, plain::walk(q, LAST_END));
                            }
                        }
                    }
                }
            }
        }
    }
    for end in [0, 1, 2, LAST_END - 1, LAST_END] {
        assert_eq!(first_difference(constants(1, 0, 4, 1, 0, 2, 0), end), Ok(None));
    }
}

#[test]
fn differences_at_the_last_inputs() {
    // ((2^32 - 1) * n + c) >> 32 is n up to n = c, and less above.
    for c in LARGEST.c - 15..=LARGEST.c {
        let q = constants(1, 0, 1, 4294967295, c, 32, 0);
        let least = Some(c + 1).filter(|&n| n < LAST_END);
        try_around(q, LAST_END, least);
        assert_eq!(first_difference(q, LAST_END), Ok(least));
        assert_eq!(answer(check_bound(q, LAST_BOUND)), plain::judged(least, LAST_BOUND));
    }
    // The quotient of n by d with a multiplier one too large differs first where m*n overtakes; ends on either side of it.
    let mut random = Random::new(20);
    let mut tried = 0;
    while tried < 40 {
        let d = random.within(2, 3000);
        let k = 31 + i64::from(64 - d.leading_zeros());
        if k > LARGEST.k {
            continue;
        }
        let m = (1 << k) / d + random.within(0, 1);
        if m > LARGEST.m {
            continue;
        }
        let q = constants(1, 0, d, m, 0, k, random.within(0, 1));
        let Some(n) = plain::walk(q, LAST_END) else { continue };
        for end in [n - 1, n, n + 1, LAST_END] {
            try_around(q, end, Some(n).filter(|&n| n < end));
        }
        tried += 1;
    }
}

/// Document 01's first row, whose first difference is 69.
const ROW: Constants = Constants { a: 1, b: 0, d: 10, m: 26, c: 0, k: 8, t: 0 };

#[test]
fn every_limit_off_by_one() {
    let refused = |q: Constants, end: i64, bound: i64| {
        assert_eq!(answer(first_difference(q, end)), Refused(9), "{q:?} below {end}");
        assert_eq!(answer(check_bound(q, bound)), Refused(9), "{q:?} at {bound}");
    };
    let accepted = |q: Constants| {
        let least = plain::walk(q, 1000);
        try_around(q, 1000, least);
    };
    for (first, last, set) in [
        (LEAST.a, LARGEST.a, (|x| Constants { a: x, ..ROW }) as fn(i64) -> Constants),
        (LEAST.b, LARGEST.b, |x| Constants { b: x, ..ROW }),
        (LEAST.d, LARGEST.d, |x| Constants { d: x, ..ROW }),
        (LEAST.m, LARGEST.m, |x| Constants { m: x, ..ROW }),
        (LEAST.c, LARGEST.c, |x| Constants { c: x, ..ROW }),
        (LEAST.k, LARGEST.k, |x| Constants { k: x, ..ROW }),
        (LEAST.t, LARGEST.t, |x| Constants { t: x, ..ROW }),
    ] {
        accepted(set(first));
        accepted(set(last));
        for outside in [first - 1, last + 1, i64::MIN, i64::MAX] {
            refused(set(outside), 0, 0);
            refused(set(outside), 1000, 1000);
            refused(set(outside), -1, -1);
            refused(set(outside), LAST_END, LAST_BOUND);
        }
        for number in support::powers() {
            if !(first..=last).contains(&number) {
                refused(set(number), 1000, 1000);
            }
        }
    }
    refused(ROW, LAST_END + 1, LAST_BOUND + 1);
    assert_eq!(answer(first_difference(ROW, LAST_END)), Value(Some(69)));
    assert_eq!(answer(check_bound(ROW, LAST_BOUND)), RefusedAt(10, 69));
    for number in support::powers() {
        assert_eq!(answer(first_difference(ROW, number)), plain::search(ROW, number, plain::walk), "{number}");
        assert_eq!(answer(check_bound(ROW, number)), plain::claim(ROW, number, plain::walk), "{number}");
    }
}

#[test]
fn several_limits_broken_at_once() {
    let mut random = Random::new(21);
    for _ in 0..500_000 {
        let mut some = |first: i64, last: i64| {
            let choices = [first, first, last, random.within(first, last), first - 1, last + 1, random.next() as i64];
            random.choose(&choices)
        };
        let q = constants(
            some(LEAST.a, LARGEST.a),
            some(LEAST.b, LARGEST.b),
            some(LEAST.d, 60),
            some(LEAST.m, LARGEST.m),
            some(LEAST.c, LARGEST.c),
            some(LEAST.k, LARGEST.k),
            some(LEAST.t, LARGEST.t),
        );
        let end = some(0, 50);
        assert_eq!(answer(first_difference(q, end)), plain::search(q, end, plain::walk), "{q:?} below {end}");
        assert_eq!(answer(check_bound(q, end)), plain::claim(q, end, plain::walk), "{q:?} at {end}");
    }
}
