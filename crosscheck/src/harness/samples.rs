//! Datagrams and damaged images to try, and what reading them answers.

use crate::harness::random::Random;
use crate::second::bits::{bits, inverted};
use crate::second::blocks::BlockReading;
use crate::second::crc;
use crate::second::datagrams::block;
use crate::second::images::image;
use crate::second::links::Link;
use crate::second::parts::{State, LONGEST};
use crate::second::slots::{SlotReading, HEAD, TRAINING};
use crate::second::words::{Refusal, PLACES};
use crate::second::Second;
use std::ops::Range;

/// Each slot link with the bytes that it holds and the bits of its burst, as document 01 gives them.
pub const SLOT_SIZES: [(u32, usize, usize); 3] = [(5, 32, 480), (6, 80, 992), (7, 128, 1504)];

/// Positions far past the end of any datagram; the last three with a place in a datagram in their low
/// bits.
pub const FAR: [usize; 8] = [
    usize::MAX,
    usize::MAX - 1,
    usize::MAX - 2,
    usize::MAX - 7,
    1 << 63,
    1 << 32,
    (1 << 32) + 1,
    65_536,
];

/// A datagram of random bytes, of any length that the link holds.
pub fn random_datagram(link: &Link, random: &mut Random) -> Vec<u8> {
    let length = random.below(link.bytes() + 1);
    random.bytes(length)
}

/// The datagram with zero bytes behind it, as long as the link holds.
pub fn filled(link: &Link, datagram: &[u8]) -> Vec<u8> {
    let mut filled = datagram.to_vec();
    filled.resize(link.bytes(), 0);
    filled
}

/// The image of the datagram's block.
pub fn image_of(link: &Link, datagram: &[u8]) -> Vec<u8> {
    bits(&image(link, &block(link, datagram)))
}

/// What reading answers where the block of this datagram is found.
pub fn found(link: &Link, datagram: &[u8], wrong: u32) -> Result<BlockReading, Refusal> {
    Ok(BlockReading {
        datagram: filled(link, datagram),
        wrong,
    })
}

/// The places of the image where no bit of the block stands.
pub fn other_places(link: &Link) -> Vec<usize> {
    let data = link.data_places();
    let all = 0..link.image_length();
    all.filter(|place| data.binary_search(place).is_err())
        .collect()
}

/// Two different places of the image, with none, one or two of them where bits of the block stand.
pub fn two_places(link: &Link, of_block: usize, random: &mut Random) -> Vec<usize> {
    let of_block = random.chosen(of_block, &link.data_places());
    let others = random.chosen(2 - of_block.len(), &other_places(link));
    [of_block, others].concat()
}

/// Link 12: rows with bits over that are not zero, and what reading them answers. With a right
/// check they belong to no valid block; one of them inverted in a valid block's image is mended.
pub fn rows_with_bits_over(
    second: &Second,
    random: &mut Random,
) -> Vec<(Vec<u8>, Result<BlockReading, Refusal>)> {
    let link = second.links.of(12);
    let over = 8 * link.bytes();
    let mut rows = Vec::new();
    for set in 1..16 {
        let places: Vec<usize> = (0..4)
            .filter(|n| set >> n & 1 == 1)
            .map(|n| over + n)
            .collect();
        let datagram = random_datagram(link, random);

        let mut covered = block(link, &datagram)[..link.k - 32].to_vec();
        places.iter().for_each(|&place| covered[place] = true);
        let check = crc::check(&covered);
        let with_right_check = [covered, check].concat();
        rows.push((bits(&image(link, &with_right_check)), Err(7)));

        let in_image: Vec<usize> = places.iter().map(|&n| link.data_places()[n]).collect();
        let answer = match places.len() {
            1 => found(link, &datagram, 1),
            _ => Err(7),
        };
        rows.push((inverted(&image_of(link, &datagram), &in_image), answer));
    }
    rows
}

/// The slot burst of the datagram.
pub fn burst_of(second: &Second, link: &Link, datagram: &[u8]) -> Vec<u8> {
    second
        .write_slot(link.number, datagram, HEAD + link.image_length())
        .expect("a burst is written")
}

/// Places that count from the start of a part, as places of the burst.
pub fn behind(start: usize, places: Vec<usize>) -> Vec<usize> {
    places.into_iter().map(|place| start + place).collect()
}

/// So many places of the training, of the word and of the block, at random; two of the block with none,
/// one or both of them where bits of the block stand.
pub fn places_of_parts(
    link: &Link,
    [training, word, block]: [usize; 3],
    random: &mut Random,
) -> Vec<usize> {
    let of_block = match block {
        2 => two_places(link, random.below(3), random),
        _ => random.places(block, link.image_length()),
    };
    [
        random.places(training, TRAINING),
        behind(TRAINING, random.places(word, PLACES)),
        behind(HEAD, of_block),
    ]
    .concat()
}

/// What reading answers where the slot burst of this datagram came with nothing wrong.
pub fn slot_found(link: &Link, datagram: &[u8]) -> Result<SlotReading, Refusal> {
    slot_with_wrong(link, datagram, &[])
}

/// What reading the slot burst of this datagram answers where these places are wrong, at most eight
/// of them in the word. It is known from how many there are in each part: nine in the training are
/// refused, eight in the word, which are within seven of no word, and two in the block.
pub fn slot_with_wrong(
    link: &Link,
    datagram: &[u8],
    places: &[usize],
) -> Result<SlotReading, Refusal> {
    let wrong_in = |part: Range<usize>| places.iter().filter(|&place| part.contains(place)).count();
    let (training, word) = (wrong_in(0..TRAINING), wrong_in(TRAINING..HEAD));
    let block = wrong_in(HEAD..HEAD + link.image_length());
    match (training, word, block) {
        (9.., _, _) => Err(5),
        (_, 9.., _) => panic!("nine wrong places of a word may be near to another word"),
        (_, 8, _) => Err(6),
        (_, _, 2..) => Err(7),
        _ => Ok(SlotReading {
            block: found(link, datagram, block as u32)?,
            link: link.number,
            word_wrong: word as u32,
            training_wrong: training as u32,
        }),
    }
}

/// A state with this count. Its bytes are those of the row, and then these, as far as there is room.
pub fn state_of(count: u32, row: &[u8], behind: &[u8]) -> State {
    let all = [row, behind].concat();
    State {
        count,
        bits: all[..LONGEST].try_into().expect("bytes for all of it"),
    }
}
