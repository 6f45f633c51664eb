//! One draw.

/// Draws below `bound` from position `at` on: the value and the next position.
/// None if the words end before a word counts, or if `bound` is 0.
pub fn draw(words: &[u64], at: usize, bound: u64) -> Option<(u64, usize)> {
    let limit = u128::from(u64::MAX.checked_div(bound)?) * u128::from(bound);
    let unread = words.get(at..)?;
    let passed_over = unread.iter().position(|&word| u128::from(word) < limit)?;
    Some((unread[passed_over] % bound, at + passed_over + 1))
}
