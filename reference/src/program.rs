//! The line that the thin program writes for its input.

use crate::calls;

/// "The program reads at most 32,768 bytes."
pub const MOST: usize = 32_768;

/// The line for this input: check's counts, the refusal, or `too long`.
pub fn line(input: &[u8]) -> String {
    if input.len() > MOST {
        return "too long".to_owned();
    }
    let mut scratch = vec![0; input.len()];
    let answer = calls::check(input, &mut scratch);
    if answer.number != 0 {
        return format!("refused {}", answer.number);
    }
    format!(
        "pages {} tables {} keys {} free {}",
        answer.pages, answer.tables, answer.keys, answer.free
    )
}
