//! The second implementation, made of the printed tables. It imports nothing outside this folder but
//! std, so that it shares nothing with what it is compared with.

pub mod bits;
pub mod blocks;
pub mod crc;
pub mod datagrams;
pub mod encoder;
pub mod images;
pub mod interleaver;
pub mod link_4;
pub mod link_tables;
pub mod links;
pub mod message_writing;
pub mod messages;
pub mod parts;
pub mod readers;
pub mod scrambler;
pub mod slots;
pub mod tables;
pub mod training;
pub mod words;

use crate::second::link_tables::LinkTables;
use crate::second::links::Links;
use crate::second::tables::Tables;
use crate::second::training::Training;
use crate::second::words::Words;
use std::path::Path;

pub struct Second {
    pub words: Words,
    pub links: Links,
    pub training: Vec<bool>,
}

impl Second {
    pub fn read(tables: &Path) -> Second {
        Second {
            words: Tables::read(tables).words(),
            links: LinkTables::read(tables).links(),
            training: Training::read(tables).bits(),
        }
    }
}
