//! The transport clock: single values and lists of them, at and beside every limit of values, positions and steps, and on runs
//! of true positions, against a follower that tries every step that may fit (tests/support/plain.rs), and against the words of
//! change request Five.

mod support;

use ovenquill::{Clock, ClockPosition, CLOCK_POSITIONS, CLOCK_TICKS_PER_MILLISECOND, CLOCK_VALUES};
use support::answer::answer;
use support::answer::Answer::{self, Refused, Value};
use support::plain::{self, HALF_WRAP, LAST_CLOCK_POSITION, TICKS_PER_MILLISECOND, WRAP};
use support::random::Random;

/// Holds what a clock answers to a value, and where it is then, to the plain follower; and the same of a list of that value.
fn try_value(clock: Clock, value: i64) {
    let expected = plain::follow(&clock, value);
    let (after, passed_over) = match expected {
        Value(position) => (Clock::At(position.ticks), 0),
        _ => (clock.clone(), 1),
    };
    let mut followed = clock.clone();
    assert_eq!((answer(followed.follow(value)), followed), (expected, after.clone()), "{clock:?} and {value}");
    let mut followed = clock.clone();
    assert_eq!((followed.follow_all(&[value]), followed), (passed_over, after), "{clock:?} and a list of {value}");
}

/// The value of the clock at a position.
fn value_at(position: i64) -> i64 {
    position.rem_euclid(WRAP)
}

/// What is answered at a position.
fn at(ticks: i64) -> Answer<ClockPosition> {
    Value(ClockPosition { ticks, milliseconds: ticks / TICKS_PER_MILLISECOND })
}

/// The numbers within 3 of some number.
fn near(number: i64) -> impl Iterator<Item = i64> {
    (-3..=3).map(move |beside| number + beside)
}

/// Numbers within 3 of wraps and of the middle between two, from below 0 to beyond the last position, and numbers of every size.
fn numbers_worth_trying() -> Vec<i64> {
    let last_wrap = LAST_CLOCK_POSITION / WRAP;
    let wraps = [-1, 0, 1, 2, 3, 4, 331, 65536, last_wrap / 2, last_wrap - 1, last_wrap, last_wrap + 1];
    let wraps_and_middles = wraps.iter().flat_map(|wrap| [wrap * WRAP, wrap * WRAP + HALF_WRAP]);
    let mut numbers: Vec<i64> = wraps_and_middles.flat_map(near).chain(support::powers()).collect();
    numbers.sort();
    numbers.dedup();
    numbers
}

#[test]
fn numbers_of_change_request_five() {
    assert_eq!((WRAP, HALF_WRAP, LAST_CLOCK_POSITION), (1 << 33, 1 << 32, 1 << 53));
    assert_eq!(CLOCK_VALUES, 0..=WRAP - 1);
    assert_eq!(CLOCK_POSITIONS, 0..=LAST_CLOCK_POSITION);
    assert_eq!(CLOCK_TICKS_PER_MILLISECOND, TICKS_PER_MILLISECOND);
    // 26 h 30 min 43.7 s, in tenths of a second of a clock of 90 kHz.
    assert_eq!(WRAP / 9000, ((26 * 60 + 30) * 60 + 43) * 10 + 7);
}

#[test]
fn words_of_change_request_five() {
    for (clock, value, ticks, milliseconds) in [
        (Clock::Nothing, 0, 0, 0),
        (Clock::Nothing, 89, 89, 0),
        (Clock::Nothing, 90, 90, 1),
        (Clock::Nothing, 8589934591, 8589934591, 95443717),
        (Clock::At(0), 4294967295, 4294967295, 47721858),
        (Clock::At(8589934591), 0, 8589934592, 95443717),
        (Clock::At(8589934592), 8589934591, 8589934591, 95443717),
        // The second wrap as the first.
        (Clock::At(17179869183), 2, 17179869186, 190887435),
        (Clock::At(17179869186), 8589934591, 17179869183, 190887435),
        // Both ways are as long: backwards.
        (Clock::At(4294967296), 0, 0, 0),
        (Clock::At(8589934592), 4294967296, 4294967296, 47721858),
        (Clock::At(8589934592), 4294967295, 12884901887, 143165576),
        // At the last position.
        (Clock::At(9007199254740991), 0, 9007199254740992, 100079991719344),
        (Clock::At(9007199254740992), 0, 9007199254740992, 100079991719344),
        (Clock::At(9007199254740992), 8589934591, 9007199254740991, 100079991719344),
        (Clock::At(9007199254740992), 4294967296, 9007194959773696, 100079943997485),
    ] {
        let mut followed = clock.clone();
        assert_eq!(followed.follow(value), Ok(ClockPosition { ticks, milliseconds }), "{clock:?} and {value}");
        assert_eq!(followed, Clock::At(ticks));
        let mut followed = clock.clone();
        assert_eq!(followed.follow_all(&[value]), 0);
        assert_eq!(followed, Clock::At(ticks));
    }
    for (clock, value) in [
        (Clock::Nothing, -1),
        (Clock::Nothing, 8589934592),
        (Clock::Nothing, i64::MIN),
        (Clock::Nothing, i64::MAX),
        (Clock::At(5), -1),
        (Clock::At(5), 8589934592),
        // The position reached is outside.
        (Clock::At(0), 4294967296),
        (Clock::At(0), 8589934591),
        (Clock::At(4294967295), 8589934591),
        (Clock::At(9007199254740991), 1),
        (Clock::At(9007199254740992), 1),
        (Clock::At(9007199254740992), 4294967295),
        // The position handed in is outside, wherever the value leads.
        (Clock::At(-1), 0),
        (Clock::At(-1), 8589934591),
        (Clock::At(9007199254740993), 0),
        (Clock::At(9007199254740993), 1),
        (Clock::At(i64::MIN), 0),
        (Clock::At(i64::MAX), 8589934591),
    ] {
        let mut followed = clock.clone();
        assert_eq!(answer(followed.follow(value)), Refused(14), "{clock:?} and {value}");
        assert_eq!(followed, clock);
        assert_eq!(followed.follow_all(&[value, value]), 2);
        assert_eq!(followed, clock);
    }
}

#[test]
fn a_new_follower_takes_the_first_value_as_it_is() {
    assert_eq!(Clock::default(), Clock::Nothing);
    for value in numbers_worth_trying() {
        try_value(Clock::Nothing, value);
        let mut clock = Clock::default();
        // A refused value is not the first one.
        assert_eq!(clock.follow_all(&[-1, WRAP, i64::MIN, i64::MAX]), 4);
        assert_eq!(clock, Clock::Nothing);
        if (0..WRAP).contains(&value) {
            assert_eq!(answer(clock.follow(value)), at(value));
            assert_eq!(clock, Clock::At(value));
        } else {
            assert_eq!(answer(clock.follow(value)), Refused(14));
            assert_eq!(clock, Clock::Nothing);
        }
    }
}

#[test]
fn positions_and_values_at_every_limit() {
    let numbers = numbers_worth_trying();
    for &position in &numbers {
        for &value in &numbers {
            try_value(Clock::At(position), value);
        }
    }
}

#[test]
fn steps_at_every_limit() {
    let steps = [-WRAP, -HALF_WRAP, -HALF_WRAP / 2, 0, HALF_WRAP / 2, HALF_WRAP, WRAP];
    for position in numbers_worth_trying() {
        for step in steps.into_iter().flat_map(near) {
            try_value(Clock::At(position), value_at(position.wrapping_add(step)));
        }
    }
}

#[test]
fn positions_reached_beside_the_ends() {
    let mut random = Random::new(39);
    for end in [0, LAST_CLOCK_POSITION] {
        for reached in near(end) {
            for step in near(-HALF_WRAP).chain(near(0)).chain(near(HALF_WRAP)) {
                try_value(Clock::At(reached - step), value_at(reached));
            }
            for _ in 0..1_000 {
                let step = random.within(-HALF_WRAP, HALF_WRAP - 1);
                try_value(Clock::At(reached - step), value_at(reached));
            }
        }
    }
}

/// Any clock: nothing heard, in the range, about its ends, or anywhere.
fn some_clock(random: &mut Random) -> Clock {
    match random.within(0, 9) {
        0 | 1 => Clock::Nothing,
        2 => Clock::At(random.next() as i64),
        3 => Clock::At(random.within(-3, HALF_WRAP)),
        4 => Clock::At(random.within(LAST_CLOCK_POSITION - HALF_WRAP, LAST_CLOCK_POSITION + 3)),
        5 => Clock::At(random.of_any_size(0, LAST_CLOCK_POSITION)),
        _ => Clock::At(random.within(0, LAST_CLOCK_POSITION)),
    }
}

/// Any value: mostly one of the clock's, else beside them or anywhere.
fn some_value(random: &mut Random) -> i64 {
    match random.within(0, 19) {
        0 => random.next() as i64,
        1 => random.choose(&[i64::MIN, -1, 0, HALF_WRAP - 1, HALF_WRAP, WRAP - 1, WRAP, i64::MAX]),
        2 => random.within(-WRAP, -1),
        3 => random.within(WRAP, 2 * WRAP),
        _ => random.within(0, WRAP - 1),
    }
}

#[test]
fn random_clocks_and_values() {
    let mut random = Random::new(40);
    for _ in 0..500_000 {
        try_value(some_clock(&mut random), some_value(&mut random));
    }
}

// Runs of true positions

/// A step within the limits: as often at or beside one of them as short as any.
fn some_step(random: &mut Random) -> i64 {
    let limit = random.choose(&[-HALF_WRAP, -HALF_WRAP + 1, HALF_WRAP - 2, HALF_WRAP - 1]);
    let short = random.within(-9009, 9009);
    let any = random.within(-HALF_WRAP, HALF_WRAP - 1);
    random.choose(&[limit, short, any])
}

/// True positions in the range, from a first one on by such steps.
fn some_run(random: &mut Random, first: i64, length: usize) -> Vec<i64> {
    let mut run = vec![first];
    while run.len() < length {
        let next = run[run.len() - 1] + some_step(random);
        if (0..=LAST_CLOCK_POSITION).contains(&next) {
            run.push(next);
        }
    }
    run
}

/// A value that a clock, with nothing heard or in the range, must refuse.
fn some_refused(random: &mut Random, clock: &Clock) -> i64 {
    let (below, above) = (random.within(i64::MIN, -1), random.within(WRAP, i64::MAX));
    let mut choices = vec![i64::MIN, below, -WRAP, -1, WRAP, 2 * WRAP - 1, above, i64::MAX];
    // From where the steps lead out of the range, most often one that does.
    if let Clock::At(position) = *clock {
        let (first, last) = (position - HALF_WRAP, position + HALF_WRAP - 1);
        if first < 0 {
            choices.extend([value_at(random.within(first, -1)), value_at(-1), value_at(first)].repeat(5));
        }
        if last > LAST_CLOCK_POSITION {
            let beyond = LAST_CLOCK_POSITION + 1;
            choices.extend([value_at(random.within(beyond, last)), value_at(beyond), value_at(last)].repeat(5));
        }
    }
    random.choose(&choices)
}

/// What became of the values of runs.
#[derive(Debug, Default)]
struct Seen {
    accepted: usize,
    refused_as_values: usize,
    refused_for_where_they_lead: usize,
    wraps_forwards: usize,
    wraps_backwards: usize,
}

impl Seen {
    /// Holds that there was enough of everything.
    fn hold(&self) {
        assert!(self.accepted > 50_000 && self.refused_as_values > 10_000, "{self:?}");
        assert!(self.refused_for_where_they_lead > 1_000, "{self:?}");
        assert!(self.wraps_forwards > 5_000 && self.wraps_backwards > 5_000, "{self:?}");
    }
}

/// Feeds a clock the values of a run and refused ones between them: the true positions must come back, value by value and
/// after the list, whole and in two batches.
fn try_run(random: &mut Random, start: Clock, run: &[i64], seen: &mut Seen) {
    let mut clock = start.clone();
    let mut fed = Vec::new();
    for &next in run {
        let before = clock.clone();
        while random.within(0, 3) == 0 {
            let refused = some_refused(random, &before);
            assert_eq!(answer(clock.follow(refused)), Refused(14), "{before:?} and {refused}");
            assert_eq!(clock, before);
            fed.push(refused);
            let a_value = (0..WRAP).contains(&refused);
            seen.refused_for_where_they_lead += usize::from(a_value);
            seen.refused_as_values += usize::from(!a_value);
        }
        assert_eq!(answer(clock.follow(value_at(next))), at(next), "{before:?} and {}", value_at(next));
        assert_eq!(clock, Clock::At(next));
        fed.push(value_at(next));
        seen.accepted += 1;
        if let Clock::At(position) = before {
            seen.wraps_forwards += usize::from(next / WRAP > position / WRAP);
            seen.wraps_backwards += usize::from(next / WRAP < position / WRAP);
        }
    }
    let passed_over = fed.len() - run.len();
    let mut whole = start.clone();
    assert_eq!((whole.follow_all(&fed), whole), (passed_over, clock.clone()), "{start:?} and {fed:?}");
    let place = random.within(0, fed.len() as i64) as usize;
    let mut parts = start.clone();
    let sum = parts.follow_all(&fed[..place]) + parts.follow_all(&fed[place..]);
    assert_eq!((sum, parts), (passed_over, clock), "{start:?} and {fed:?}, split at {place}");
}

#[test]
fn a_new_follower_gives_back_true_positions() {
    let mut random = Random::new(41);
    let mut seen = Seen::default();
    for _ in 0..2_000 {
        let any = random.within(0, WRAP - 1);
        let first = random.choose(&[0, 1, HALF_WRAP - 1, HALF_WRAP, HALF_WRAP + 1, WRAP - 2, WRAP - 1, any, any, any]);
        let length = random.within(1, 100) as usize;
        let run = some_run(&mut random, first, length);
        try_run(&mut random, Clock::Nothing, &run, &mut seen);
    }
    seen.hold();
}

#[test]
fn a_follower_anywhere_gives_back_true_positions() {
    let mut random = Random::new(42);
    let mut seen = Seen::default();
    for _ in 0..2_000 {
        let near_first = random.within(0, 3 * HALF_WRAP);
        let near_last = random.within(LAST_CLOCK_POSITION - 3 * HALF_WRAP, LAST_CLOCK_POSITION);
        let any = random.within(0, LAST_CLOCK_POSITION);
        let position = random.choose(&[0, LAST_CLOCK_POSITION, near_first, near_last, near_first, near_last, any]);
        let length = random.within(1, 100) as usize;
        // The first step is from the position that is handed in.
        let run = some_run(&mut random, position, length + 1);
        try_run(&mut random, Clock::At(position), &run[1..], &mut seen);
    }
    seen.hold();
}

/// Feeds a clock true positions one by one, and another the same in batches of a thousand.
fn try_long_run(run: impl Iterator<Item = i64>) {
    let (mut one_by_one, mut in_batches) = (Clock::Nothing, Clock::Nothing);
    let mut batch = Vec::new();
    for position in run {
        assert_eq!(answer(one_by_one.follow(value_at(position))), at(position));
        batch.push(value_at(position));
        if batch.len() == 1000 {
            assert_eq!(in_batches.follow_all(&batch), 0);
            assert_eq!(in_batches, Clock::At(position));
            batch.clear();
        }
    }
    assert_eq!(in_batches.follow_all(&batch), 0);
    assert_eq!(in_batches, one_by_one);
}

#[test]
fn the_whole_range_by_the_longest_steps() {
    let longest = HALF_WRAP - 1;
    let forwards = (0..=LAST_CLOCK_POSITION / longest).map(|step| step * longest).chain([LAST_CLOCK_POSITION]);
    let backwards = (0..LAST_CLOCK_POSITION / HALF_WRAP).rev().map(|step| step * HALF_WRAP);
    try_long_run(forwards.chain(backwards));
}

#[test]
fn a_leap_year_of_a_clock_that_wraps_after_26_hours_and_a_half() {
    const MINUTE: i64 = 60 * 1000 * TICKS_PER_MILLISECOND;
    const MINUTES: i64 = 366 * 24 * 60;
    const FIRST: i64 = WRAP - 1;
    assert_eq!((FIRST + MINUTES * MINUTE) / WRAP, 332, "wraps in that year");
    let year = || (0..=MINUTES).chain((0..MINUTES).rev());
    try_long_run(year().map(|minute| FIRST + minute * MINUTE));
    // A minute has as many milliseconds wherever it is.
    let mut clock = Clock::Nothing;
    for minute in year() {
        let milliseconds = 95443717 + 60_000 * minute;
        assert_eq!(clock.follow(value_at(FIRST + minute * MINUTE)).unwrap().milliseconds, milliseconds, "{minute}");
    }
    assert_eq!(clock, Clock::At(FIRST));
}

// Lists

/// Holds a list to the plain follower: whole, value by value, without those that are passed over, and split at each of these
/// places.
fn try_list(start: Clock, values: &[i64], places: impl Iterator<Item = usize>) {
    let (after, passed_over) = plain::follow_all(&start, values);
    let mut whole = start.clone();
    assert_eq!((whole.follow_all(values), whole), (passed_over, after.clone()), "{start:?} and {values:?}");

    let mut one_by_one = start.clone();
    let accepted: Vec<i64> = values.iter().copied().filter(|&value| one_by_one.follow(value).is_ok()).collect();
    assert_eq!((values.len() - accepted.len(), one_by_one), (passed_over, after.clone()), "{start:?} and {values:?}");

    let mut without_refused = start.clone();
    assert_eq!(
        (without_refused.follow_all(&accepted), without_refused),
        (0, after.clone()),
        "{start:?} and {values:?}"
    );

    for place in places {
        let mut parts = start.clone();
        let sum = parts.follow_all(&values[..place]) + parts.follow_all(&values[place..]);
        assert_eq!((sum, parts), (passed_over, after.clone()), "{start:?} and {values:?}, split at {place}");
    }
}

fn some_values(random: &mut Random, length: usize) -> Vec<i64> {
    (0..length).map(|_| some_value(random)).collect()
}

#[test]
fn lists_of_many_lengths_split_at_every_place() {
    let mut random = Random::new(43);
    for length in (0..=70).chain([127, 128, 129, 1000]) {
        for _ in 0..10 {
            let start = some_clock(&mut random);
            try_list(start, &some_values(&mut random, length), 0..=length);
        }
    }
}

#[test]
fn lists_in_many_batches() {
    let mut random = Random::new(44);
    for _ in 0..2_000 {
        let start = some_clock(&mut random);
        let length = random.within(0, 200) as usize;
        let values = some_values(&mut random, length);
        let (after, passed_over) = plain::follow_all(&start, &values);
        let mut clock = start.clone();
        let mut sum = 0;
        let mut rest = &values[..];
        while !rest.is_empty() {
            let (batch, others) = rest.split_at(random.within(0, rest.len().min(9) as i64) as usize);
            sum += clock.follow_all(batch);
            rest = others;
        }
        assert_eq!((sum, clock), (passed_over, after), "{start:?} and {values:?}");
    }
}

#[test]
fn lists_with_a_refused_value_at_every_place() {
    let mut random = Random::new(45);
    for length in (1..=40).chain([64, 65]) {
        let start = random.within(WRAP << 10, WRAP << 11);
        let run = some_run(&mut random, start, length);
        let right: Vec<i64> = run.iter().map(|&position| value_at(position)).collect();
        for place in 0..length {
            for refused in [i64::MIN, -1, WRAP, i64::MAX] {
                let mut values = right.clone();
                values[place] = refused;
                try_list(Clock::Nothing, &values, [place, place + 1].into_iter());
                try_list(Clock::At(start), &values, [place, place + 1].into_iter());
                // Put between the others, it changes none of them.
                values.insert(place, right[place]);
                let mut clock = Clock::At(start);
                assert_eq!(clock.follow_all(&values), 1);
                assert_eq!(clock, Clock::At(run[length - 1]));
            }
        }
    }
}

#[test]
fn lists_of_refused_values_and_empty_lists() {
    let mut random = Random::new(46);
    let clocks = numbers_worth_trying().into_iter().map(Clock::At).chain([Clock::Nothing, Clock::default()]);
    for start in clocks {
        let mut clock = start.clone();
        assert_eq!(clock.follow_all(&[]), 0);
        assert_eq!(clock, start);
        for length in [1, 2, 3, 8, 17] {
            let refused: Vec<i64> = (0..length).map(|_| some_refused(&mut random, &Clock::Nothing)).collect();
            assert_eq!(clock.follow_all(&refused), length);
            assert_eq!(clock, start);
        }
        // From outside the range every value is passed over.
        if let Clock::At(position) = start {
            let values: Vec<i64> = (0..17).map(|_| random.within(0, WRAP - 1)).chain([0, value_at(position)]).collect();
            let outside = !(0..=LAST_CLOCK_POSITION).contains(&position);
            let passed_over = clock.follow_all(&values);
            assert_eq!(passed_over == values.len() && clock == start, outside, "{start:?} and {values:?}");
        }
    }
}

#[test]
fn long_runs_of_refused_values_and_then_a_good_one() {
    let mut random = Random::new(69);
    for count in [100, 255, 256, 4095, 4096, 4097, 10_000, 65_535, 65_536, 1_000_000] {
        for start in [Clock::Nothing, Clock::At(0), Clock::At(LAST_CLOCK_POSITION / 2), Clock::At(LAST_CLOCK_POSITION)]
        {
            let first = match start {
                Clock::Nothing => random.within(0, WRAP - 1),
                Clock::At(position) => position,
            };
            let refused: Vec<i64> = (0..count).map(|_| some_refused(&mut random, &start)).collect();
            let values = [&refused[..], &[value_at(first)]].concat();
            let mut clock = start.clone();
            assert_eq!((clock.follow_all(&values), clock), (count, Clock::At(first)), "{count} from {start:?}");
            // Twice in one list, with a step to the second good one that both ends of the range allow.
            let (inward, refused) = (if first > HALF_WRAP { first - 1 } else { first + 1 }, vec![-1; count]);
            let values = [&refused[..], &[value_at(first)], &refused, &[value_at(inward)]].concat();
            let (after, passed_over) = plain::follow_all(&start, &values);
            assert_eq!((passed_over, &after), (2 * count, &Clock::At(inward)));
            let mut clock = start.clone();
            assert_eq!((clock.follow_all(&values), clock), (passed_over, after), "{count} from {start:?}");
        }
    }
}

#[test]
fn a_list_of_half_a_million_values() {
    let mut random = Random::new(47);
    let values = some_values(&mut random, 500_000);
    for start in [Clock::Nothing, Clock::At(LAST_CLOCK_POSITION / 2), Clock::At(LAST_CLOCK_POSITION)] {
        let (after, passed_over) = plain::follow_all(&start, &values);
        let mut clock = start.clone();
        assert_eq!((clock.follow_all(&values), clock), (passed_over, after), "{start:?}");
    }
}

// Milliseconds, restarts and the order of positions

/// What a clock at a position answers to that position's own value.
fn answered_at(ticks: i64) -> ClockPosition {
    let position = Clock::At(ticks).follow(value_at(ticks)).unwrap();
    assert_eq!(position.ticks, ticks);
    position
}

#[test]
fn milliseconds_are_rounded_down_and_never_fall() {
    let mut positions: Vec<i64> = [500, WRAP, 2 * WRAP, 331 * WRAP, LAST_CLOCK_POSITION / 2, LAST_CLOCK_POSITION - 500]
        .into_iter()
        .flat_map(|middle| middle - 500..=middle + 500)
        .collect();
    let mut random = Random::new(48);
    positions.extend((0..100_000).map(|_| random.of_any_size(0, LAST_CLOCK_POSITION)));
    positions.sort();
    let mut before = answered_at(0);
    assert_eq!(before.milliseconds, 0);
    for ticks in positions {
        let position = answered_at(ticks);
        let rest = ticks - position.milliseconds * TICKS_PER_MILLISECOND;
        assert!((0..TICKS_PER_MILLISECOND).contains(&rest), "{position:?}");
        assert!(position.milliseconds >= before.milliseconds && position >= before, "{before:?} and {position:?}");
        before = position;
    }
}

#[test]
fn a_restarted_follower_knows_nothing_of_earlier_wraps() {
    // It cannot go back behind the wrap before its first value, as the old one can.
    let (mut old, mut restarted) = (Clock::At(3 * WRAP - 1), Clock::default());
    assert_eq!(answer(old.follow(0)), at(3 * WRAP));
    assert_eq!(answer(restarted.follow(0)), at(0));
    assert_eq!(answer(old.follow(WRAP - 1)), at(3 * WRAP - 1));
    assert_eq!(answer(restarted.follow(WRAP - 1)), Refused(14));
    assert_eq!((old, restarted), (Clock::At(3 * WRAP - 1), Clock::At(0)));

    let mut random = Random::new(49);
    for _ in 0..1_000 {
        let mut position = random.of_any_size(0, LAST_CLOCK_POSITION / 2);
        let earlier = position / WRAP * WRAP;
        let mut old = Clock::At(position);
        let mut restarted = Clock::default();
        assert_eq!(answer(restarted.follow(value_at(position))), at(position - earlier));
        for _ in 0..50 {
            // A step forwards, so that the restarted one refuses none; one that was put where the old one was goes on as it.
            let mut put_back = Clock::At(position);
            let any = random.within(0, HALF_WRAP - 1);
            position += random.choose(&[0, 3003, any, HALF_WRAP - 1]);
            assert_eq!(answer(old.follow(value_at(position))), at(position));
            assert_eq!(answer(put_back.follow(value_at(position))), at(position));
            assert_eq!(answer(restarted.follow(value_at(position))), at(position - earlier));
        }
    }
}

#[test]
fn positions_are_in_the_order_of_their_ticks() {
    let position = |ticks, milliseconds| ClockPosition { ticks, milliseconds };
    let in_order = [
        position(i64::MIN, i64::MAX),
        position(-1, 7),
        position(0, -1),
        position(0, 0),
        position(89, 0),
        position(90, -5),
        position(90, 1),
        position(LAST_CLOCK_POSITION, 0),
        position(i64::MAX, i64::MIN),
    ];
    for (place, a) in in_order.iter().enumerate() {
        for (other, b) in in_order.iter().enumerate() {
            assert_eq!(a.cmp(b), place.cmp(&other), "{a:?} and {b:?}");
            assert_eq!(a.partial_cmp(b), Some(place.cmp(&other)));
        }
    }
}
