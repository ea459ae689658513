//! Instants: day, fields, joining and the recording index, against `div_euclid`, `rem_euclid` and the table of all days
//! (tests/support/plain.rs), and against the rows of document 01 and of change request Eight.

mod support;

use ovenquill::{day_of_instant, index_days, join_instant, split_instant, Fields, INSTANTS};
use std::ops::Range;
use support::answer::answer;
use support::answer::Answer::{self, Refused, RefusedAt, Value};
use support::plain::{
    self, DAY, FIRST_DAY, FIRST_INSTANT, FIRST_LABEL_DAY, FIRST_LABEL_INSTANT, FIRST_LABEL_YEAR, FIRST_YEAR, HOUR,
    LAST_DAY, LAST_INSTANT, LAST_LABEL_DAY, LAST_LABEL_INSTANT, LAST_LABEL_YEAR, LAST_YEAR, MINUTE, SECOND,
};
use support::random::Random;
use support::BAD_INSTANTS;

/// Holds the day and the fields of any number to the plain ones, and joins the fields of an instant again.
fn try_instant(instant: i64) {
    assert_eq!(answer(day_of_instant(instant)), plain::day_of_instant(instant), "the day of {instant}");
    let split = split_instant(instant);
    assert_eq!(answer(split), plain::split_instant(instant), "the fields of {instant}");
    if let Ok(fields) = split {
        assert_eq!(join_instant(fields), Ok(instant), "{fields:?}");
    }
}

fn try_fields(fields: Fields) {
    let joined = join_instant(fields);
    assert_eq!(answer(joined), plain::join_instant(fields), "{fields:?}");
    if let Ok(instant) = joined {
        assert_eq!(split_instant(instant), Ok(fields), "{instant}");
    }
}

/// Holds an instant and its fields to each other.
fn try_row(instant: i64, [year, month, day, hour, minute, second, millisecond]: [i64; 7]) {
    let fields = Fields { year, month, day, hour, minute, second, millisecond };
    assert_eq!(split_instant(instant), Ok(fields));
    assert_eq!(join_instant(fields), Ok(instant));
}

#[test]
fn range_of_change_request_eight() {
    assert_eq!((FIRST_INSTANT, LAST_INSTANT), (-1071989683200000, 947655244799999));
    assert_eq!(INSTANTS, FIRST_INSTANT..=LAST_INSTANT);
}

#[test]
fn rows_of_document_01() {
    for (instant, day) in
        [(-86400001, -2), (-86400000, -1), (-1, -1), (0, 0), (86399999, 0), (86400000, 1), (1683729000000, 19487)]
    {
        assert_eq!(day_of_instant(instant), Ok(day));
    }
    try_row(1683729000000, [2023, 5, 10, 14, 30, 0, 0]);
    try_row(-1, [1969, 12, 31, 23, 59, 59, 999]);
    let mut days = [7; 4];
    assert_eq!(index_days(&[-1, 0, 86399999, 86400000], &mut days), Ok(4));
    assert_eq!(days, [-1, 0, 0, 1]);
    assert_eq!(index_days(&[], &mut []), Ok(0));
}

#[test]
fn rows_of_change_request_eight() {
    // Both ends of the range and of the years of labels, and a millisecond beyond the latter.
    let rows = [
        (-1071989683200000, -12407288, [-32000, 1, 1, 0, 0, 0, 0]),
        (-62167219200001, -719529, [-1, 12, 31, 23, 59, 59, 999]),
        (-62167219200000, -719528, [0, 1, 1, 0, 0, 0, 0]),
        (253402300799999, 2932896, [9999, 12, 31, 23, 59, 59, 999]),
        (253402300800000, 2932897, [10000, 1, 1, 0, 0, 0, 0]),
        (947655244799999, 10968231, [31999, 12, 31, 23, 59, 59, 999]),
    ];
    for (instant, day, fields) in rows {
        assert_eq!(day_of_instant(instant), Ok(day));
        try_row(instant, fields);
    }
    for instant in [-1071989683200001, 947655244800000] {
        assert_eq!(answer(day_of_instant(instant)), Refused(4));
        assert_eq!(answer(split_instant(instant)), Refused(4));
        assert_eq!(answer(index_days(&[0, instant], &mut [7; 2])), RefusedAt(4, 1));
    }
    let mut days = [7; 6];
    assert_eq!(index_days(&rows.map(|row| row.0), &mut days), Ok(6));
    assert_eq!(days.map(i64::from), rows.map(|row| row.1));
}

#[test]
fn ten_million_random_instants() {
    let mut random = Random::new(4);
    for _ in 0..10_000_000 {
        try_instant(random.within(FIRST_INSTANT, LAST_INSTANT));
    }
}

#[test]
fn around_every_day_boundary() {
    for day in FIRST_DAY..=LAST_DAY + 1 {
        for near in [-1, 0, 1] {
            try_instant(day * DAY + near);
        }
    }
}

#[test]
fn every_second_around_some_day_boundaries() {
    let label_days = [FIRST_LABEL_DAY - 1, FIRST_LABEL_DAY, LAST_LABEL_DAY, LAST_LABEL_DAY + 1];
    let days = [FIRST_DAY, -865566, -720930, -719468, -25509, -1, 0, 11016, 19487, 47541, LAST_DAY];
    for day in days.into_iter().chain(label_days) {
        for second in 0..=86400 {
            for near in [-1, 0, 1] {
                try_instant(day * DAY + second * SECOND + near);
            }
        }
    }
}

#[test]
fn every_instant_around_the_ends_and_zero() {
    for near in -200_000..=200_000 {
        for instant in [FIRST_INSTANT, FIRST_LABEL_INSTANT, 0, LAST_LABEL_INSTANT, LAST_INSTANT] {
            try_instant(instant + near);
        }
    }
}

#[test]
fn numbers_of_every_size() {
    for number in support::powers() {
        try_instant(number);
        for shift in [FIRST_INSTANT, LAST_INSTANT, 719468 * DAY, 146097 * DAY, (719468 + 81 * 146097) * DAY] {
            try_instant(number.wrapping_add(shift));
            try_instant(number.wrapping_sub(shift));
        }
    }
    let mut random = Random::new(5);
    for _ in 0..1_000_000 {
        try_instant(random.next() as i64);
        try_instant(random.next() as i64 >> random.within(0, 63));
    }
}

#[test]
fn joined_fields_at_and_beyond_every_limit() {
    let years = [
        i64::MIN,
        FIRST_YEAR - 1,
        FIRST_YEAR,
        -100,
        FIRST_LABEL_YEAR - 1,
        FIRST_LABEL_YEAR,
        1900,
        2000,
        LAST_LABEL_YEAR,
        LAST_LABEL_YEAR + 1,
        LAST_YEAR,
        LAST_YEAR + 1,
        i64::MAX,
    ];
    let months = [i64::MIN, 0, 1, 2, 4, 12, 13, i64::MAX];
    let days = [i64::MIN, 0, 1, 28, 29, 30, 31, 32, i64::MAX];
    let hours = [i64::MIN, -1, 0, 23, 24, i64::MAX];
    let sixties = [i64::MIN, -1, 0, 59, 60, i64::MAX];
    let milliseconds = [i64::MIN, -1, 0, SECOND - 1, SECOND, i64::MAX];
    for year in years {
        for month in months {
            for day in days {
                for hour in hours {
                    for minute in sixties {
                        for second in sixties {
                            for millisecond in milliseconds {
                                try_fields(Fields { year, month, day, hour, minute, second, millisecond });
                            }
                        }
                    }
                }
            }
        }
    }
}

#[test]
fn one_field_wrong_by_any_size() {
    let right = Fields { year: 2024, month: 2, day: 29, hour: 23, minute: 59, second: 59, millisecond: SECOND - 1 };
    let mut numbers = support::powers();
    numbers.extend(-70..=SECOND + 100);
    for number in numbers {
        try_fields(Fields { year: number, ..right });
        try_fields(Fields { month: number, ..right });
        try_fields(Fields { day: number, ..right });
        try_fields(Fields { hour: number, ..right });
        try_fields(Fields { minute: number, ..right });
        try_fields(Fields { second: number, ..right });
        try_fields(Fields { millisecond: number, ..right });
    }
}

#[test]
fn joining_refuses_in_order() {
    let all_wrong =
        Fields { year: FIRST_YEAR - 1, month: 0, day: 0, hour: 24, minute: 60, second: 60, millisecond: SECOND };
    assert_eq!(answer(join_instant(all_wrong)), Refused(1));
    let year_right = Fields { year: 1900, ..all_wrong };
    assert_eq!(answer(join_instant(year_right)), Refused(2));
    let month_right = Fields { month: 2, day: 29, ..year_right };
    assert_eq!(answer(join_instant(month_right)), Refused(3));
    let date_right = Fields { day: 28, ..month_right };
    assert_eq!(answer(join_instant(date_right)), Refused(5));
    let last_wrong = Fields { hour: 0, minute: 0, second: 0, ..date_right };
    assert_eq!(answer(join_instant(last_wrong)), Refused(5));
    assert_eq!(answer(join_instant(Fields { millisecond: 0, ..last_wrong })), Value(-25509 * DAY));
}

#[test]
fn random_fields() {
    let mut random = Random::new(6);
    for _ in 0..3_000_000 {
        try_fields(Fields {
            year: random.within(FIRST_YEAR - 20, LAST_YEAR + 20),
            month: random.within(0, 13),
            day: random.within(0, 32),
            hour: random.within(-1, 24),
            minute: random.within(-1, 60),
            second: random.within(-1, 60),
            millisecond: random.within(-SECOND / 100, SECOND + SECOND / 100),
        });
    }
}

// The recording index

/// What stands before the lent instants and behind them: a pair across either end falls.
const INSTANT_GUARDS: [i64; 2] = [0x5afe_c0de_5afe_c0de, -0x5afe_c0de_5afe_c0de];
const DAY_GUARDS: [i32; 2] = [0x5afe_c0de; 2];
/// What is in the list of days before a call.
const BEFORE: i32 = -0x0123_4567;

/// Where a list of this length stands among its guards; not every list begins at the same alignment.
fn among_guards(length: usize) -> Range<usize> {
    let start = 16 + length % 4;
    start..start + length
}

/// The same list with guards around it.
fn guarded<T: Copy>(list: &[T], [before, behind]: [T; 2]) -> Vec<T> {
    [&vec![before; among_guards(list.len()).start], list, &[behind; 16]].concat()
}

/// Calls the index on these instants and that many days, both among guards, and holds the answer, the days and all that
/// is around them to the plain index; answers the same.
fn try_index(instants: &[i64], days_length: usize) -> Answer<usize> {
    let lent = guarded(instants, INSTANT_GUARDS);
    let mut days = guarded(&vec![BEFORE; days_length], DAY_GUARDS);
    let answered = answer(index_days(&lent[among_guards(instants.len())], &mut days[among_guards(days_length)]));

    let mut expected = vec![BEFORE; days_length];
    let title = || format!("{} instants, the first of them {:?}", instants.len(), &instants[..instants.len().min(20)]);
    assert_eq!(answered, plain::index_days(instants, &mut expected), "{}", title());
    assert!(days == guarded(&expected, DAY_GUARDS), "the days are wrong: {}", title());
    assert!(lent == guarded(instants, INSTANT_GUARDS), "an instant changed: {}", title());
    let lent_days = &days[among_guards(days_length)];
    assert!(lent_days.windows(2).all(|pair| pair[0] <= pair[1]), "the days fall: {}", title());
    answered
}

/// The lengths of lists that are tried with something at every place.
fn lengths() -> impl Iterator<Item = usize> {
    (0..=70).chain([127, 128, 129, 1000])
}

/// The largest steps from one instant to the next: none, a millisecond, two that leave many instants on a day, days and years.
const LARGEST_STEPS: [i64; 6] = [0, 1, MINUTE, HOUR, 3 * DAY, 5 * 365 * DAY];

/// Instants that never fall, with steps of at most one of these; the first and the last of the range are not among them.
fn recording(random: &mut Random, largest_steps: &[i64], length: usize) -> Vec<i64> {
    let mut instant = random.within(FIRST_INSTANT + 1, LAST_INSTANT - 1);
    let mut next = || {
        let largest = random.choose(largest_steps);
        instant = (instant + random.within(0, largest)).min(LAST_INSTANT - 1);
        instant
    };
    (0..length).map(|_| next()).collect()
}

/// Recordings of this length: one for each largest step, and one with steps of every size.
fn recordings(random: &mut Random, length: usize) -> Vec<Vec<i64>> {
    let kinds = LARGEST_STEPS.chunks(1).chain([&LARGEST_STEPS[..]]);
    kinds.map(|largest_steps| recording(random, largest_steps, length)).collect()
}

/// Tries something with recordings of many lengths, at each of their places from the first one on.
fn at_every_place(seed: u64, first: usize, tried: impl Fn(&[i64], usize)) {
    let mut random = Random::new(seed);
    for length in lengths() {
        for instants in recordings(&mut random, length) {
            (first..length).for_each(|place| tried(&instants, place));
        }
    }
}

/// The same list with another instant at one place.
fn with(instants: &[i64], place: usize, instant: i64) -> Vec<i64> {
    let mut changed = instants.to_vec();
    changed[place] = instant;
    changed
}

/// Recordings with a fall at this place only: the instant there is too small, the one before it is too large, or all from
/// there on begin again earlier.
fn with_a_fall(instants: &[i64], place: usize) -> Vec<Vec<i64>> {
    let (before, there) = (instants[place - 1], instants[place]);
    let mut begun_again = instants.to_vec();
    begun_again[place..].iter_mut().for_each(|instant| *instant -= there - before + 1);
    let mut fallen = vec![begun_again];
    for by in [1, DAY, LAST_INSTANT - FIRST_INSTANT] {
        fallen.push(with(instants, place, (before - by).max(FIRST_INSTANT)));
        fallen.push(with(instants, place - 1, (there + by).min(LAST_INSTANT)));
    }
    fallen
}

/// Every list of so many of these instants.
fn every_list(of: &[i64], length: u32) -> impl Iterator<Item = Vec<i64>> + '_ {
    let digit = |number: usize, place| number / of.len().pow(place) % of.len();
    (0..of.len().pow(length)).map(move |number| (0..length).map(|place| of[digit(number, place)]).collect())
}

#[test]
fn the_index_refuses_in_order() {
    let mut days = [BEFORE; 4];
    let all_wrong = [1, 0, i64::MAX, 0];
    assert_eq!(answer(index_days(&all_wrong, &mut days[1..])), Refused(12));
    assert_eq!(answer(index_days(&all_wrong, &mut days)), RefusedAt(4, 2));
    let range_right = [1, 0, DAY, 0];
    assert_eq!(answer(index_days(&range_right, &mut days)), RefusedAt(15, 1));
    let first_pair_right = [0, 0, DAY, 0];
    assert_eq!(answer(index_days(&first_pair_right, &mut days)), RefusedAt(15, 3));
    assert_eq!(days, [BEFORE; 4]);
    assert_eq!(answer(index_days(&[0, 0, DAY, DAY], &mut days)), Value(4));
    assert_eq!(days, [0, 0, 1, 1]);
}

#[test]
fn indexes_of_many_lengths() {
    let mut random = Random::new(7);
    for length in lengths() {
        for instants in recordings(&mut random, length) {
            assert_eq!(try_index(&instants, length), Value(length));
        }
    }
}

#[test]
fn indexes_with_a_new_day_at_every_place() {
    for length in lengths() {
        for place in 0..=length {
            for new_day in
                [FIRST_INSTANT + DAY, FIRST_LABEL_INSTANT, -DAY, 0, LAST_LABEL_INSTANT + 1, LAST_INSTANT + 1 - DAY]
            {
                let first = new_day - place as i64;
                let instants: Vec<i64> = (first..).take(length).collect();
                assert_eq!(try_index(&instants, length), Value(length));
            }
        }
    }
}

#[test]
fn indexes_around_every_day_boundary() {
    for first in (FIRST_DAY..=LAST_DAY).step_by(1000) {
        let days = first..=LAST_DAY.min(first + 999);
        let instants: Vec<i64> = days.flat_map(|day| [day * DAY, day * DAY + DAY - 1]).collect();
        assert_eq!(try_index(&instants, instants.len()), Value(instants.len()));
    }
}

#[test]
fn indexes_with_equal_neighbours_at_every_place() {
    at_every_place(61, 1, |instants, place| {
        let equal = with(instants, place, instants[place - 1]);
        assert_eq!(try_index(&equal, equal.len()), Value(equal.len()));
    });
}

#[test]
fn indexes_with_a_fall_at_every_place() {
    at_every_place(62, 1, |instants, place| {
        for fallen in with_a_fall(instants, place) {
            assert_eq!(try_index(&fallen, fallen.len()), RefusedAt(15, place as i64));
        }
    });
}

#[test]
fn indexes_with_several_falls() {
    let mut random = Random::new(63);
    for length in 2..=70 {
        let instants = recording(&mut random, &LARGEST_STEPS, length);
        for first in 1..length {
            let fallen = with(&instants, first, instants[first - 1] - 1);
            for second in first + 1..length {
                let fallen = with(&fallen, second, FIRST_INSTANT);
                assert_eq!(try_index(&fallen, length), RefusedAt(15, first as i64));
            }
        }
        let falling: Vec<i64> = (0..length as i64).rev().collect();
        assert_eq!(try_index(&falling, length), RefusedAt(15, 1));
    }
}

#[test]
fn indexes_with_a_bad_instant_at_every_place() {
    at_every_place(64, 0, |instants, place| {
        for edge in [FIRST_INSTANT, LAST_INSTANT, -1, 0] {
            try_index(&with(instants, place, edge), instants.len());
        }
        for bad in BAD_INSTANTS {
            assert_eq!(try_index(&with(instants, place, bad), instants.len()), RefusedAt(4, place as i64));
        }
    });
}

#[test]
fn indexes_with_several_bad_instants() {
    let mut random = Random::new(8);
    for _ in 0..20_000 {
        let length = random.within(1, 70) as usize;
        let mut instants = recording(&mut random, &LARGEST_STEPS, length);
        for _ in 0..random.within(1, 5) {
            let place = random.within(0, length as i64 - 1) as usize;
            instants[place] = random.choose(&BAD_INSTANTS);
        }
        try_index(&instants, length);
    }
    for length in 1..=70 {
        assert_eq!(try_index(&vec![i64::MIN; length], length), RefusedAt(4, 0));
    }
    let mut days = [BEFORE; 3];
    assert_eq!(answer(index_days(&[0, i64::MAX, i64::MIN], &mut days)), RefusedAt(4, 1));
    assert_eq!(days, [BEFORE; 3]);
}

/// Pairs of places of a long list, the first one 1 or more and before the second: beside powers of two, and random ones.
fn two_places(random: &mut Random, length: usize) -> Vec<(usize, usize)> {
    let beside_powers = (0..20).flat_map(|power| (1usize << power) - 1..=(1 << power) + 1);
    let random_places = (0..10).map(|_| random.within(1, length as i64 - 1) as usize);
    let firsts: Vec<usize> = beside_powers.chain(random_places).chain([length - 2]).collect();
    let mut pairs = Vec::new();
    for first in firsts.into_iter().filter(|first| (1..length - 1).contains(first)) {
        let any = random.within(first as i64 + 1, length as i64 - 1) as usize;
        pairs.extend([first + 1, any, length - 1].map(|second| (first, second)));
    }
    pairs
}

#[test]
fn the_first_of_several_is_named_in_long_indexes() {
    let mut random = Random::new(68);
    for length in [2050, 4100, 5000, 140_000] {
        let instants = recording(&mut random, &LARGEST_STEPS, length);
        let mut changed = instants.clone();
        for (first, second) in two_places(&mut random, length) {
            let restore = |changed: &mut Vec<i64>| [first, second].map(|place| changed[place] = instants[place]);
            changed[first] = instants[first - 1] - 1;
            changed[second] = FIRST_INSTANT;
            assert_eq!(try_index(&changed, length), RefusedAt(15, first as i64));
            changed[second] = random.choose(&BAD_INSTANTS);
            assert_eq!(try_index(&changed, length), RefusedAt(4, second as i64));
            changed[first] = random.choose(&BAD_INSTANTS);
            assert_eq!(try_index(&changed, length), RefusedAt(4, first as i64));
            restore(&mut changed);
        }
        assert_eq!(try_index(&changed, length), Value(length));
        // From some place on every instant falls or is bad.
        for place in [2047, 2048, length - 2] {
            let rising = &instants[..place];
            let falling: Vec<i64> = (0..(length - place) as i64).map(|by| instants[place - 1] - 1 - by).collect();
            assert_eq!(try_index(&[rising, &falling].concat(), length), RefusedAt(15, place as i64));
            let bad = vec![i64::MAX; length - place];
            assert_eq!(try_index(&[rising, &bad].concat(), length), RefusedAt(4, place as i64));
        }
    }
}

#[test]
fn a_bad_instant_comes_before_a_fall_anywhere() {
    let mut random = Random::new(65);
    for length in lengths() {
        let instants = recording(&mut random, &LARGEST_STEPS, length);
        for fall in (1..length).filter(|&fall| length <= 70 || [1, length / 2, length - 1].contains(&fall)) {
            let fallen = with(&instants, fall, instants[fall - 1] - 1);
            for place in 0..length {
                for bad in BAD_INSTANTS {
                    assert_eq!(try_index(&with(&fallen, place, bad), length), RefusedAt(4, place as i64));
                }
            }
        }
    }
}

#[test]
fn indexes_at_the_ends_of_the_range() {
    for length in lengths() {
        for place in 0..=length {
            let [first, last] = [FIRST_INSTANT, LAST_INSTANT].map(|end| vec![end; length]);
            let rising = [&first[..place], &last[place..]].concat();
            assert_eq!(try_index(&rising, length), Value(length));
            let falling = [&last[..place], &first[place..]].concat();
            let falls = 0 < place && place < length;
            let answer = if falls { RefusedAt(15, place as i64) } else { Value(length) };
            assert_eq!(try_index(&falling, length), answer);
        }
    }
}

#[test]
fn indexes_of_two_numbers_of_every_size() {
    let mut numbers = support::powers();
    for middle in [FIRST_INSTANT, FIRST_LABEL_INSTANT, -DAY, DAY, LAST_LABEL_INSTANT, LAST_INSTANT] {
        numbers.extend(middle - 1..=middle + 1);
    }
    for &earlier in &numbers {
        for &later in &numbers {
            try_index(&[earlier, later], 2);
            try_index(&[[earlier; 20], [later; 20]].concat(), 40);
        }
    }
}

#[test]
fn every_short_index_of_close_instants() {
    for middle in [FIRST_INSTANT, FIRST_LABEL_INSTANT, -DAY, 0, DAY, LAST_LABEL_INSTANT, LAST_INSTANT] {
        let close: Vec<i64> = (middle - 3..=middle + 3).collect();
        for instants in (0..=6).flat_map(|length| every_list(&close, length)) {
            try_index(&instants, instants.len());
        }
    }
    for instants in (7..=17).flat_map(|length| every_list(&[-1, 0], length)) {
        try_index(&instants, instants.len());
    }
}

#[test]
fn every_four_neighbours_at_every_place() {
    for of in [[-2, -1, 0, 1, 2], [-DAY - 1, -DAY, -1, 0, DAY], [FIRST_INSTANT - 1, -1, 0, 1, LAST_INSTANT + 1]] {
        let [_, before, _, behind, _] = of;
        for neighbours in every_list(&of, 4) {
            for length in [8, 16, 19, 32, 35, 67] {
                for place in 0..=length - 4 {
                    let [before, behind] = [vec![before; place], vec![behind; length - 4 - place]];
                    try_index(&[before, neighbours.clone(), behind].concat(), length);
                }
            }
        }
    }
}

#[test]
fn random_indexes_with_a_few_changes() {
    let mut random = Random::new(66);
    let mut seen = [0; 3];
    for _ in 0..60_000 {
        let length = random.within(1, 300) as usize;
        let largest_step = random.choose(&LARGEST_STEPS);
        let mut instants = recording(&mut random, &[largest_step], length);
        for _ in 0..random.within(0, 3) {
            let place = random.within(0, length as i64 - 1) as usize;
            let close = instants[place].saturating_add(random.within(-2, 2));
            let bad = random.choose(&BAD_INSTANTS);
            instants[place] = random.choose(&[close, close, close, close, FIRST_INSTANT, LAST_INSTANT, bad]);
        }
        let kind = match try_index(&instants, length) {
            Value(_) => 0,
            RefusedAt(4, _) => 1,
            _ => 2,
        };
        seen[kind] += 1;
    }
    assert!(seen.iter().all(|&times| times > 5_000), "accepted, refused by 4 and by 15: {seen:?}");
}

#[test]
fn indexes_of_unequal_lengths() {
    let mut random = Random::new(9);
    for length in (0..=70).chain([1000]) {
        let good = recording(&mut random, &LARGEST_STEPS, length);
        let falling: Vec<i64> = (0..length as i64).rev().collect();
        let bad = vec![i64::MAX; length];
        let lengths = (0..=length + 3).chain([2 * length, 1000, length + 256, length + 65536]);
        for days_length in lengths.filter(|&days_length| days_length != length) {
            for instants in [&good, &falling, &bad] {
                assert_eq!(try_index(instants, days_length), Refused(12));
            }
        }
    }
}

#[test]
fn indexes_of_lengths_that_differ_in_their_upper_bits_only() {
    let upper = [0, 1 << 8, 1 << 15, 1 << 16, 1 << 17, 3 << 16, 1 << 18, 1 << 20];
    for lower in [0, 5] {
        for (instants_length, days_length) in upper.into_iter().flat_map(|a| upper.map(|b| (a + lower, b + lower))) {
            if instants_length != days_length {
                for instants in [vec![0; instants_length], vec![i64::MAX; instants_length]] {
                    assert_eq!(try_index(&instants, days_length), Refused(12), "{instants_length} and {days_length}");
                }
            }
        }
    }
}

#[test]
fn an_index_of_a_million_instants() {
    let mut random = Random::new(10);
    let length = 1_000_000;
    for largest_step in [MINUTE, 2 * DAY] {
        let instants = recording(&mut random, &[largest_step], length);
        assert_eq!(try_index(&instants, length), Value(length));
        for place in [1, 65_535, 65_536, 499_999, 999_998, 999_999] {
            let fallen = with(&instants, place, instants[place - 1] - 1);
            assert_eq!(try_index(&fallen, length), RefusedAt(15, place as i64));
        }
        let fallen = with(&instants, 1, instants[0] - 1);
        for place in [0, 499_999, 999_999] {
            assert_eq!(try_index(&with(&fallen, place, LAST_INSTANT + 1), length), RefusedAt(4, place as i64));
        }
    }
}
