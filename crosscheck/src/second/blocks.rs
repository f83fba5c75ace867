//! Writing and reading blocks, with the refusals in document 01's order.

use crate::second::bits::{bits, from_bytes};
use crate::second::datagrams::{block, datagram};
use crate::second::images::image;
use crate::second::readers::read_quickly;
use crate::second::words::Refusal;
use crate::second::Second;

/// A block that was read: its datagram, as long as the link holds, and the count of wrong places.
#[derive(Clone, Debug, PartialEq)]
pub struct BlockReading {
    pub datagram: Vec<u8>,
    pub wrong: u32,
}

impl Second {
    /// The bytes that a writing call puts at the start of a buffer of this length.
    pub fn write_block(
        &self,
        number: u32,
        datagram: &[u8],
        buffer_length: usize,
    ) -> Result<Vec<u8>, Refusal> {
        let link = self.links.get(number).ok_or(1u32)?;
        if datagram.len() > link.bytes() {
            return Err(2);
        }
        if buffer_length < link.image_length() {
            return Err(3);
        }
        Ok(bits(&image(link, &block(link, datagram))))
    }

    pub fn read_block(
        &self,
        number: u32,
        row: &[u8],
        buffer_length: usize,
    ) -> Result<BlockReading, Refusal> {
        let link = self.links.get(number).ok_or(1u32)?;
        if row.len() != link.image_length() {
            return Err(2);
        }
        if buffer_length < link.bytes() {
            return Err(3);
        }
        let came = from_bytes(row).ok_or(4u32)?;
        let found = read_quickly(link, &came).ok_or(7u32)?;
        Ok(BlockReading {
            datagram: datagram(link, &found.block),
            wrong: found.wrong as u32,
        })
    }
}
