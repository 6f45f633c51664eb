//! Compares the archive's choice of one round with the reference: the document's cases and seeded rounds. The reference's shares are exact.

use harness::archive;
use harness::reference::{choose, choose_by, Choice, Lift, Outcome, Round};
use harness::seeded::Seeded;
use harness::ways::{step, Drawn, Weights};
use std::iter;

/// A lift's donor (0 for none), old measure and new measure.
type LiftRow = (usize, u64, u64);

/// A round of such lifts.
fn round(rows: &[LiftRow], old_sums: [u64; 2], held: [Option<usize>; 2]) -> Round {
    let lift = |&(donor, old_measure, new_measure): &LiftRow| Lift {
        donor: donor.checked_sub(1),
        old_measure,
        new_measure,
    };
    let lifts = rows.iter().map(lift).collect();
    Round {
        lifts,
        old_sums,
        held,
    }
}

/// A choice on which archive and reference agree.
fn agreed(round: &Round, words: &[u64], at: usize) -> Option<Choice> {
    let expected = choose(round, words, at);
    let proved = archive::select(round, words, at);
    assert_eq!(proved, expected, "{round:?} from {words:?} at {at}");
    expected
}

/// Checks a case: the bounds asked for, the choice, and that one word fewer is too few.
fn check(name: &str, round: &Round, draws: &[Drawn], place: usize, outcome: Outcome) {
    let mut left = draws.iter();
    let chosen = choose_by(round, &mut |bound| {
        let &(expected, value) = left.next()?;
        assert_eq!(bound, expected, "{name}");
        Some(value)
    });
    assert_eq!(chosen, Some((place, outcome)), "{name}");

    let words: Vec<u64> = draws.iter().map(|&(_, value)| value as u64).collect();
    let choice = agreed(round, &words, 0).expect("the words suffice");
    let (chosen, next) = ((choice.place, choice.outcome), choice.next);
    assert_eq!((chosen, next), ((place, outcome), words.len()), "{name}");
    if let Some((_, fewer)) = words.split_last() {
        assert_eq!(agreed(round, fewer, 0), None, "{name}");
    }
}

#[test]
fn worked_cases() {
    use Outcome::{Fresh, Held, Replaced};
    let three = [(1, 2, 4), (1, 3, 1), (1, 5, 5)];
    let held_12 = round(&three, [10, 0], [Some(1), None]);
    let held_13 = round(&three, [10, 0], [Some(2), None]);
    check("M1", &held_12, &[(30, 9)], 1, Held);
    check("M2", &held_12, &[(30, 10), (20, 0)], 0, Replaced);
    check("M3", &held_13, &[], 2, Held);

    let two = [(1, 1, 1), (2, 3, 1)];
    let both = round(&two, [4, 6], [Some(0), Some(1)]);
    let neither = round(&two, [4, 6], [None, None]);
    let only_22 = round(&two, [4, 6], [None, Some(1)]);
    check("M6", &both, &[(18, 11)], 0, Held);
    check("M7", &both, &[(18, 12), (24, 17)], 1, Held);
    check("M8", &both, &[(18, 12), (24, 18), (6, 5)], 0, Held);
    check("M9", &neither, &[(2, 1)], 1, Fresh);
    check("M10", &only_22, &[(24, 18), (6, 0)], 0, Replaced);

    let no_chance = round(&[(1, 3, 0), (1, 7, 1)], [10, 0], [Some(0), None]);
    for (r, q) in (0..3).flat_map(|r| (0..3).map(move |q| (r, q))) {
        check("M11", &no_chance, &[(3, r), (3, q)], 1, Replaced);
    }
}

/// A round of so many lifts, with up to so many donors, of sums up to the largest, with held lifts here or elsewhere.
fn any_round(seeded: &mut Seeded, count: usize, donors: usize) -> Round {
    let new_sum = seeded.round_sum();
    let new_measures = seeded.split(new_sum, count);
    let came: Vec<Vec<u64>> = (0..donors)
        .map(|_| {
            let (sum, elsewhere) = (seeded.round_sum(), seeded.index(3));
            seeded.split(sum, count + elsewhere)
        })
        .collect();
    let row = |place: usize| match seeded.index(donors + 1) {
        0 => (0, 0, new_measures[place]),
        donor => (donor, came[donor - 1][place], new_measures[place]),
    };
    let rows: Vec<LiftRow> = (0..count).map(row).collect();
    let mut any = round(&rows, [0, 0], [None, None]);
    for donor in 0..donors {
        let here = any.came_here(donor) as u64;
        let rest = (1 << 20) - here;
        any.old_sums[donor] = match seeded.below(3) {
            0 => here,
            1 => 1 << 20,
            _ => here + seeded.below(rest + 1),
        };
        let sent: Vec<usize> = (0..count)
            .filter(|&place| rows[place].0 == donor + 1 && rows[place].1 > 0)
            .collect();
        let held = seeded.index(2 * sent.len() + 1);
        any.held[donor] = sent.get(held / 2).copied();
    }
    any
}

/// A round of `least` to `most` lifts, with none, one or two donors, and how many.
fn proper_round(seeded: &mut Seeded, least: usize, most: usize) -> (Round, usize) {
    loop {
        let donors = seeded.index(3);
        let count = least + seeded.index(most - least + 1);
        let any = any_round(seeded, count, donors);
        if is_proper(&any, donors) {
            return (any, donors);
        }
    }
}

/// Words that give a round's draws the least value, the greatest or any, some words passed over between them, and where each draw's words end.
fn words_for(seeded: &mut Seeded, round: &Round, words: &mut Vec<u64>) -> Vec<usize> {
    let mut ends = Vec::new();
    let chosen = choose_by(round, &mut |bound| {
        let bound = bound as u64;
        let value = match seeded.below(3) {
            0 => 0,
            1 => bound - 1,
            _ => seeded.below(bound),
        };
        let passed_over = seeded.index(8).saturating_sub(5);
        words.extend((0..passed_over).map(|_| seeded.passed_over(bound)));
        words.push(value + seeded.below(u64::MAX / bound) * bound);
        ends.push(words.len());
        Some(value.into())
    });
    chosen.expect("every draw is answered");
    ends
}

/// The choice on which archive and reference agree, from words that suffice and from each number of words that is one short in a
/// draw, and how many draws it took.
fn compared(seeded: &mut Seeded, round: &Round) -> (Choice, usize) {
    let mut words: Vec<u64> = (0..seeded.index(3)).map(|_| seeded.word()).collect();
    let at = words.len();
    let ends = words_for(seeded, round, &mut words);
    let choice = agreed(round, &words, at).expect("the words suffice");
    assert_eq!(choice.next, words.len());
    for end in &ends {
        assert_eq!(agreed(round, &words[..end - 1], at), None);
    }
    (choice, ends.len())
}

#[test]
fn largest_sums() {
    let top = 1 << 20;
    let both = [(1, top, 0), (2, top, top - 1), (0, 0, 1)];
    let held = round(&both, [top, top], [Some(0), Some(1)]);
    let (scale, old_weight) = (1 << 41, 1 << 60);
    let first = (scale, (1 << 40) - 1);
    check(
        "lowest",
        &held,
        &[first, (old_weight, 0), (old_weight, 0)],
        1,
        Outcome::Held,
    );
    let highest = old_weight - 1;
    let draws = [first, (old_weight, highest), (old_weight, highest)];
    check("highest", &held, &draws, 2, Outcome::Replaced);
    check("second", &held, &[(scale, scale - 1)], 1, Outcome::Held);
}

#[test]
fn seeded_rounds_agree() {
    let mut seeded = Seeded::new(5);
    let (mut by_draws, mut by_donors, mut by_outcome) = ([0; 4], [0; 3], [0; 4]);
    let (mut both_held, mut largest_sums, mut zero_measures) = (0, 0, 0);
    for _ in 0..200_000 {
        let (any, donors) = proper_round(&mut seeded, 1, 9);
        let (choice, draws) = compared(&mut seeded, &any);
        by_draws[draws] += 1;
        by_donors[donors] += 1;
        by_outcome[choice.outcome as usize] += 1;
        both_held += usize::from(any.held.iter().all(Option::is_some));
        largest_sums += usize::from(any.new_sum() == 1 << 20 && any.old_sums.contains(&(1 << 20)));
        let zero =
            |lift: &Lift| lift.new_measure == 0 || lift.donor.is_some() && lift.old_measure == 0;
        zero_measures += usize::from(any.lifts.iter().any(zero));
    }
    let counts = [&by_draws[..], &by_donors, &by_outcome[1..]].concat();
    let counts = [counts, vec![both_held, largest_sums, zero_measures]].concat();
    assert!(counts.iter().all(|&rounds| rounds >= 1_000), "{counts:?}");
}

/// Rounds of several blocks of 16 lifts: every place of the first three is chosen, by replacement and fresh.
#[test]
fn long_rounds_agree() {
    let mut seeded = Seeded::new(6);
    let (mut by_place, mut whole_blocks) = ([[0; 4]; 70], 0);
    for _ in 0..50_000 {
        let (any, _) = proper_round(&mut seeded, 10, 70);
        let (choice, _) = compared(&mut seeded, &any);
        by_place[choice.place][choice.outcome as usize] += 1;
        whole_blocks += usize::from(any.lifts.len().is_multiple_of(16));
    }
    let (replaced, fresh) = (Outcome::Replaced as usize, Outcome::Fresh as usize);
    for (place, by_outcome) in by_place[..48].iter().enumerate() {
        let least = by_outcome[replaced].min(by_outcome[fresh]);
        assert!(least >= 20, "{place} {by_outcome:?}");
    }
    assert!(whole_blocks >= 1_000);
}

/// A small round with up to so many donors and measures of at most `most`, no lift held.
fn small_round(seeded: &mut Seeded, donors: usize, most: u64) -> Round {
    let count = 1 + seeded.index(4);
    let row = |_| match seeded.index(donors + 1) {
        0 => (0, 0, seeded.below(most + 1)),
        donor => (donor, 1 + seeded.below(most), seeded.below(most + 1)),
    };
    let rows: Vec<LiftRow> = (0..count).map(row).collect();
    let mut small = round(&rows, [0, 0], [None, None]);
    for donor in 0..donors {
        small.old_sums[donor] = small.came_here(donor) as u64 + seeded.below(3);
    }
    small
}

/// Whether exactly so many donors send measure and the new sum is above 0.
fn is_proper(round: &Round, donors: usize) -> bool {
    (0..donors).all(|donor| round.came_here(donor) > 0) && round.new_sum() > 0
}

/// Where a donor's held lift may be, each with its weight out of the donor's whole old sum.
fn held_places(round: &Round, donor: usize) -> Vec<(Option<usize>, u128)> {
    let here = round.lifts.iter().enumerate();
    let mut places: Vec<_> = here
        .filter(|(_, lift)| lift.donor == Some(donor))
        .map(|(place, lift)| (Some(place), lift.old_measure.into()))
        .collect();
    places.push((None, whole_sum(round, donor) - round.came_here(donor)));
    places
}

/// A donor's whole old sum, 1 if there is no such donor.
fn whole_sum(round: &Round, donor: usize) -> u128 {
    round.old_sums[donor].max(1).into()
}

/// Calls `seen` with the chosen place and the draws for all draws' values, on each of which archive and reference agree.
fn all_ways(round: &Round, mut seen: impl FnMut(usize, &[Drawn])) {
    let mut draws: Vec<Drawn> = Vec::new();
    loop {
        let mut made = 0;
        let chosen = choose_by(round, &mut |bound| {
            if made == draws.len() {
                draws.push((bound, 0));
            }
            made += 1;
            Some(draws[made - 1].1)
        });
        let (place, _) = chosen.expect("every draw is answered");
        let words: Vec<u64> = draws.iter().map(|&(_, value)| value as u64).collect();
        assert_eq!(
            agreed(round, &words, 0).map(|choice| choice.place),
            Some(place)
        );
        seen(place, &draws);
        if !step(&mut draws) {
            return;
        }
    }
}

/// The ways to each lift, weighed out of both whole old sums.
fn weigh_ways(round: &Round) -> Weights {
    let mut weights = Weights::new(round.lifts.len());
    let mut marked = round.clone();
    for (held_1, weight_1) in held_places(round, 0) {
        for (held_2, weight_2) in held_places(round, 1) {
            marked.held = [held_1, held_2];
            all_ways(&marked, |place, draws| {
                weights.add(place, weight_1 * weight_2, draws);
            });
        }
    }
    weights
}

/// Checks that the ways to each lift weigh exactly b over S, multiplied out.
fn check_shares(round: &Round) {
    let (weights, common) = weigh_ways(round).total();
    let whole = common * whole_sum(round, 0) * whole_sum(round, 1);
    for (place, lift) in round.lifts.iter().enumerate() {
        let expected = whole * u128::from(lift.new_measure);
        let weight = weights[place] * round.new_sum();
        assert_eq!(weight, expected, "{place} of {round:?}");
    }
}

#[test]
fn shares_are_exact() {
    let mut seeded = Seeded::new(4);
    for (donors, most, count) in [(0, 5, 50), (1, 5, 200), (2, 2, 200), (2, 3, 20)] {
        let rounds = iter::repeat_with(|| small_round(&mut seeded, donors, most));
        let proper = rounds.filter(|round| is_proper(round, donors));
        proper.take(count).for_each(|round| check_shares(&round));
    }
}
