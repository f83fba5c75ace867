//! Writing and reading slot bursts, with the refusals in document 01's order (M.2092-1, Annex 3,
//! Table 23; document 01, "Slot bursts"; document 02, K7).

use crate::second::bits::{bits, differences, from_bytes};
use crate::second::blocks::BlockReading;
use crate::second::words::{Reading, Refusal};
use crate::second::Second;

/// The links that have slot bursts.
pub const SLOT_LINKS: [u32; 3] = [5, 6, 7];

/// Bits of the training, and of the training and the link word.
pub const TRAINING: usize = 54;
pub const HEAD: usize = 86;

/// A slot burst that was read, with the counts of wrong places in its block, its word and its training.
#[derive(Clone, Debug, PartialEq)]
pub struct SlotReading {
    pub block: BlockReading,
    pub link: u32,
    pub word_wrong: u32,
    pub training_wrong: u32,
}

impl Second {
    /// The bytes that a writing call puts at the start of a buffer of this length.
    pub fn write_slot(
        &self,
        number: u32,
        datagram: &[u8],
        buffer_length: usize,
    ) -> Result<Vec<u8>, Refusal> {
        if !SLOT_LINKS.contains(&number) {
            return Err(1);
        }
        let link = self.links.of(number);
        if datagram.len() > link.bytes() {
            return Err(2);
        }
        if buffer_length < HEAD + link.image_length() {
            return Err(3);
        }
        let training = bits(&self.training);
        let word = bits(self.words.of(number as usize));
        let block = self.write_block(number, datagram, link.image_length())?;
        Ok([training, word, block].concat())
    }

    pub fn read_slot(&self, row: &[u8], buffer_length: usize) -> Result<SlotReading, Refusal> {
        if row.len() < HEAD {
            return Err(2);
        }
        let (head, rest) = row.split_at(HEAD);
        let head = from_bytes(head).ok_or(4u32)?;
        let (training, word) = head.split_at(TRAINING);
        let training_wrong = differences(training, &self.training);
        if training_wrong >= 9 {
            return Err(5);
        }
        let Reading { number, wrong } = self.words.read(&bits(word))?;
        if !SLOT_LINKS.contains(&number) {
            return Err(1);
        }
        Ok(SlotReading {
            block: self.read_block(number, rest, buffer_length)?,
            link: number,
            word_wrong: wrong,
            training_wrong: training_wrong as u32,
        })
    }
}
