//! Two readers of an image, one plain, one quick (document 01, number 7): each answers the valid
//! block whose image differs from what came in at most one place.

use crate::second::bits::differences;
use crate::second::crc;
use crate::second::datagrams::is_valid;
use crate::second::images::{data, image};
use crate::second::links::Link;

/// A valid block within one: its k bits, and the count of places where its image differs.
#[derive(Clone, Debug, PartialEq)]
pub struct Found {
    pub block: Vec<bool>,
    pub wrong: usize,
}

/// The plain reader: takes the k bits out of what came and out of what came with each one of its N
/// places inverted.
pub fn read_plainly(link: &Link, came: &[bool]) -> Option<Found> {
    let flips = (0..came.len()).map(|place| with_inverted(came, place));
    let images = [came.to_vec()].into_iter().chain(flips);
    let blocks = images.map(|image| data(link, &image));
    the_one_within_one(link, came, blocks)
}

/// The quick reader: tries the k bits that came, and those with one inverted that make the check
/// right.
pub fn read_quickly(link: &Link, came: &[bool]) -> Option<Found> {
    let received = data(link, came);
    let flips = flips_with_right_check(&received);
    let flipped = flips.iter().map(|&place| with_inverted(&received, place));
    let blocks = [received.clone()].into_iter().chain(flipped);
    the_one_within_one(link, came, blocks)
}

/// The places whose inversion makes the check of these bits right. The register, which a right
/// check leaves at zeros, is a sum: one inverted bit adds what a single 1 leaves there from zeros.
pub fn flips_with_right_check(block: &[bool]) -> Vec<usize> {
    let left = crc::register_after(crc::ALL_ONES, block);
    let mut flips = Vec::new();
    let mut added = crc::register_after(crc::ALL_ZEROS, &[true]);
    for place in (0..block.len()).rev() {
        if added == left {
            flips.push(place);
        }
        added = crc::clocked(added, false);
    }
    flips
}

fn with_inverted(row: &[bool], place: usize) -> Vec<bool> {
    let mut row = row.to_vec();
    row[place] = !row[place];
    row
}

fn the_one_within_one(
    link: &Link,
    came: &[bool],
    blocks: impl Iterator<Item = Vec<bool>>,
) -> Option<Found> {
    let mut found: Vec<Found> = Vec::new();
    for block in blocks.filter(|block| is_valid(link, block)) {
        if found.iter().any(|before| before.block == block) {
            continue;
        }
        let wrong = differences(&image(link, &block), came);
        if wrong <= 1 {
            found.push(Found { block, wrong });
        }
    }
    assert!(
        found.len() <= 1,
        "more than one block within one: {found:?}"
    );
    found.pop()
}
