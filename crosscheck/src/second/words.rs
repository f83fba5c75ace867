//! The second implementation of link words (M.2092-1, Annex 2, 1.2.3.4; document 01, "Link words").

use crate::second::bits::bits;

pub const PLACES: usize = 32;

pub type Word = [bool; PLACES];

/// Document 01's number of a refusal.
pub type Refusal = u32;

/// A link word that was read: its number, and the count of places where the two words differ.
#[derive(Clone, Copy, Debug, PartialEq)]
pub struct Reading {
    pub number: u32,
    pub wrong: u32,
}

/// The words of the numbers 0 to 63, in order.
pub struct Words(Vec<Word>);

impl Words {
    pub fn new(generator: &[Word; 6], scrambling: &Word) -> Words {
        Words((0..64).map(|n| word(n, generator, scrambling)).collect())
    }

    pub fn of(&self, number: usize) -> &Word {
        &self.0[number]
    }

    /// The bytes that a writing call puts at the start of a buffer of this length.
    pub fn write(&self, number: u32, buffer_length: usize) -> Result<Vec<u8>, Refusal> {
        if number > 63 {
            return Err(1);
        }
        if buffer_length < PLACES {
            return Err(3);
        }
        Ok(bits(self.of(number as usize)))
    }

    pub fn read(&self, row: &[u8]) -> Result<Reading, Refusal> {
        if row.len() != PLACES {
            return Err(2);
        }
        if row.iter().any(|&byte| byte != 0 && byte != 1) {
            return Err(4);
        }
        let mut near = Vec::new();
        for number in 0..64 {
            let wrong = wrong_places(self.of(number), row);
            if wrong <= 7 {
                near.push((number as u32, wrong));
            }
        }
        match near[..] {
            [] => Err(6),
            [(number, wrong)] => Ok(Reading { number, wrong }),
            _ => panic!("more than one word within seven of {row:?}: {near:?}"),
        }
    }
}

/// The sum modulo 2 of the scrambling word and the generator rows of the set bits D0 to D5, D0 the
/// highest.
fn word(number: usize, generator: &[Word; 6], scrambling: &Word) -> Word {
    let mut sum = *scrambling;
    for (row, weight) in generator.iter().zip([32, 16, 8, 4, 2, 1]) {
        let bit_is_set = number / weight % 2 == 1;
        for place in 0..PLACES {
            sum[place] = sum[place] != (bit_is_set && row[place]);
        }
    }
    sum
}

fn wrong_places(word: &Word, row: &[u8]) -> u32 {
    let mut wrong = 0;
    for place in 0..PLACES {
        if word[place] != (row[place] == 1) {
            wrong += 1;
        }
    }
    wrong
}

/// The places where two words differ, in order.
pub fn differing_places(one: &Word, other: &Word) -> Vec<usize> {
    (0..PLACES).filter(|&p| one[p] != other[p]).collect()
}
