//! Compares the archive's draw with the reference.

use harness::seeded::Seeded;
use harness::{archive, reference};

/// A draw on which archive and reference agree.
fn agreed(words: &[u64], at: usize, bound: u64) -> Option<(u64, usize)> {
    let expected = reference::draw(words, at, bound);
    let proved = archive::draw_below(words, at, bound);
    assert_eq!(proved, expected, "{words:?} at {at}, bound {bound}");
    expected
}

/// Words near the limit for a draw below `bound`, fewer than `count`.
fn words_near(seeded: &mut Seeded, count: usize, bound: u64) -> Vec<u64> {
    let length = seeded.index(count);
    (0..length).map(|_| seeded.word_near(bound)).collect()
}

/// A start position: mostly in the list, else at its end, behind it or far off.
fn start(seeded: &mut Seeded, length: usize) -> usize {
    match seeded.below(12) {
        0 => length,
        1 => length + 1 + seeded.index(9),
        2 => usize::MAX - seeded.index(2),
        3 => (1 << (32 + seeded.index(32))) + seeded.index(length + 1),
        _ => seeded.index(length + 1),
    }
}

#[test]
fn any_bound_words_and_start() {
    let mut seeded = Seeded::new(1);
    let (mut compared, mut short) = (0, 0);
    for _ in 0..200_000 {
        let bound = seeded.bound();
        let words = words_near(&mut seeded, 8, bound);
        let at = start(&mut seeded, words.len());
        short += usize::from(agreed(&words, at, bound).is_none());
        compared += 1;
    }
    assert!(compared >= 100_000);
    assert!(short >= 10_000 && compared - short >= 10_000);
}

#[test]
fn lists_that_just_suffice_and_one_short() {
    let mut seeded = Seeded::new(2);
    let mut compared = 0;
    for _ in 0..60_000 {
        let bound = seeded.bound();
        let mut words = words_near(&mut seeded, 4, bound);
        let at = words.len();
        let passed_over = seeded.index(6);
        words.extend((0..passed_over).map(|_| seeded.passed_over(bound)));
        assert_eq!(agreed(&words, at, bound), None);
        let last = seeded.counted(bound);
        words.push(last);
        assert_eq!(agreed(&words, at, bound), Some((last % bound, words.len())));
        compared += 2;
    }
    assert!(compared >= 100_000);
}

#[test]
fn draws_in_a_row_read_on() {
    let mut seeded = Seeded::new(3);
    let mut compared = 0;
    for _ in 0..20_000 {
        let mut bound = seeded.bound();
        let words = words_near(&mut seeded, 40, bound);
        let mut at = 0;
        while let Some((value, next)) = agreed(&words, at, bound) {
            assert!(value < bound && at < next && next <= words.len());
            compared += 1;
            at = next;
            if seeded.below(3) == 0 {
                bound = seeded.bound();
            }
        }
        compared += 1;
    }
    assert!(compared >= 100_000);
}

#[test]
fn m4_highest_word_is_passed_over() {
    assert_eq!(agreed(&[u64::MAX], 0, 3), None);
    assert_eq!(agreed(&[u64::MAX, 7], 0, 3), Some((1, 2)));
}

#[test]
fn m5_word_below_highest_gives_2() {
    assert_eq!(agreed(&[u64::MAX - 1], 0, 3), Some((2, 1)));
}

#[test]
fn highest_word_is_passed_over_for_every_power_of_two() {
    for exponent in 0..64 {
        assert_eq!(agreed(&[u64::MAX], 0, 1 << exponent), None);
    }
    assert_eq!(agreed(&[u64::MAX - 1], 0, 2), None);
}

#[test]
fn draw_below_1_uses_a_word() {
    assert_eq!(agreed(&[9, 8], 0, 1), Some((0, 1)));
    assert_eq!(agreed(&[9, 8], 1, 1), Some((0, 2)));
    assert_eq!(agreed(&[9, 8], 2, 1), None);
}

#[test]
fn bound_0_answers_nothing() {
    for at in [0, 1, 2, 3, usize::MAX] {
        assert_eq!(agreed(&[0, u64::MAX], at, 0), None);
        assert_eq!(agreed(&[], at, 0), None);
    }
}
