//! The scrambler (M.2092-1, Annex 2, 1.2.6), with the polynomial 1 + x^-14 + x^-15.

/// Cells 1 to 15 in order.
pub type Cells = [bool; 15];

/// Figure 9, which shows this word, is lost in our text of M.2092-1; the worked slot burst of
/// Annex 3 fixes it.
const LOADING_WORD: &str = "100101010000000";

pub fn loading_word() -> Cells {
    let cells: Vec<bool> = LOADING_WORD.chars().map(|digit| digit == '1').collect();
    cells.try_into().expect("the loading word has 15 digits")
}

/// The bits with the scrambler's put on them, or taken off again.
pub fn scrambled(bits: &[bool]) -> Vec<bool> {
    scrambled_from(loading_word(), bits)
}

pub fn scrambled_from(loaded: Cells, bits: &[bool]) -> Vec<bool> {
    // All that was put into cell 1, the latest last: cell n holds the n-th from the end.
    let mut put_in: Vec<bool> = loaded.into_iter().rev().collect();
    let mut scrambled = Vec::new();
    for bit in bits {
        let cell = |n: usize| put_in[put_in.len() - n];
        let sum = cell(14) ^ cell(15);
        put_in.push(sum);
        scrambled.push(bit ^ sum);
    }
    scrambled
}
