//! Random words for the draws of a sheet that fits.

use crate::reference::{choose_by, new_rounds, Round, Sheet};
use crate::seeded::{limit, Seeded};

/// Adds words that just suffice for a sheet, and gives each word's new round, 0 for those before.
pub fn add_sheet_words(seeded: &mut Seeded, sheet: &Sheet, words: &mut Vec<u64>) -> Vec<u32> {
    let mut round_of_word = vec![0; words.len()];
    for new_round in new_rounds(sheet) {
        add_round_words(seeded, &new_round.round, words);
        round_of_word.resize(words.len(), new_round.number);
    }
    round_of_word
}

/// Adds words that just suffice for a round.
pub fn add_round_words(seeded: &mut Seeded, round: &Round, words: &mut Vec<u64>) {
    let chosen = choose_by(round, &mut |bound| {
        Some(add_draw_words(seeded, bound as u64, words).into())
    });
    chosen.expect("every draw is answered");
}

/// Adds words that just suffice for a draw, near K × W on either side, and gives its value.
fn add_draw_words(seeded: &mut Seeded, bound: u64, words: &mut Vec<u64>) -> u64 {
    loop {
        let word = seeded.word_near(bound);
        words.push(word);
        if word < limit(bound) {
            return word % bound;
        }
    }
}
