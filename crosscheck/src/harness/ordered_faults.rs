//! Requests with several faults at once, and the refusal that document 01's order puts first
//! ("Numbers a caller gets back").

use crate::harness::samples::SLOT_SIZES;
use crate::second::bits::{bits, inverted};
use crate::second::slots::{HEAD, TRAINING};
use crate::second::words::Refusal;
use crate::second::Second;

/// Numbers of no link, of links not offered, and numbers that end in the bits of link 5.
pub const NOT_OFFERED: [u32; 17] = [
    0,
    1,
    2,
    3,
    24,
    26,
    31,
    34,
    35,
    63,
    64,
    69,
    255,
    256 + 5,
    65_536 + 5,
    1 << 31,
    u32::MAX,
];

/// A writing request: link, bytes of the datagram, bytes of the buffer.
pub type Writing = (u32, usize, usize);

/// A link that is not offered, then a datagram too long, then a buffer too short.
pub fn writing_blocks() -> Vec<(Writing, Refusal)> {
    let not_offered = NOT_OFFERED.map(|link| ((link, 6000, 0), 1));
    let of_offered = [
        ((4, 116, 0), 2),
        ((4, 116, 1280), 2),
        ((4, 116, 1281), 2),
        ((4, 115, 0), 3),
        ((4, 115, 1280), 3),
        ((4, 0, 1280), 3),
        ((5, 33, 0), 2),
        ((5, 33, 393), 2),
        ((5, 33, 394), 2),
        ((12, 118, 0), 2),
        ((12, 118, 1308), 2),
        ((20, 9, 401), 2),
        ((33, 6000, 12_854), 2),
        ((5, 32, 393), 3),
        ((5, 0, 0), 3),
        ((12, 117, 1307), 3),
        ((20, 8, 401), 3),
        ((33, 531, 12_854), 3),
    ];
    [&not_offered[..], &of_offered].concat()
}

/// A link that has no slot burst, then a datagram too long, then a buffer too short, be it for the
/// training alone.
pub fn writing_slots() -> Vec<(Writing, Refusal)> {
    let offered_for_blocks = (8..=23).chain([4, 25, 32, 33]);
    let of_no_slot = NOT_OFFERED.into_iter().chain(offered_for_blocks);
    let mut faults: Vec<_> = of_no_slot.map(|link| ((link, 6000, 0), 1)).collect();
    for (link, bytes, length) in SLOT_SIZES {
        for buffer in [0, 53, 54, 85, 86, length - HEAD, length - 1, length] {
            faults.push(((link, bytes + 1, buffer), 2));
        }
        for buffer in [0, 53, 54, 85, 86, length - HEAD, length - 1] {
            faults.push(((link, bytes, buffer), 3));
            faults.push(((link, 0, buffer), 3));
        }
    }
    faults
}

/// A request to read a block: link, what came, bytes of the buffer.
pub type BlockRequest = (u32, Vec<u8>, usize);

/// A link that is not offered, then a wrong length, a buffer too short, a non-bit, and at last bits
/// that no valid block's image is near to.
pub fn reading_blocks(second: &Second) -> Vec<(BlockRequest, Refusal)> {
    let not_offered = NOT_OFFERED.map(|link| ((link, vec![2; 393], 0), 1));
    let mut faults = not_offered.to_vec();
    for (length, byte, buffer, refusal) in [
        (0, 2, 31, 2),
        (393, 2, 31, 2),
        (395, 2, 31, 2),
        (480, 2, 0, 2),
        (393, 0, 0, 2),
        (394, 2, 31, 3),
        (394, 2, 0, 3),
        (394, 0, 31, 3),
        (394, 2, 32, 4),
        (394, 255, 1000, 4),
        (394, 0, 32, 7),
        (394, 1, 32, 7),
    ] {
        faults.push(((5, vec![byte; length], buffer), refusal));
    }
    for link in second.links.all() {
        let (n, bytes) = (link.image_length(), link.bytes());
        for (length, buffer, refusal) in [
            (n - 1, bytes - 1, 2),
            (n + 1, bytes - 1, 2),
            (n, bytes - 1, 3),
            (n, bytes, 4),
        ] {
            faults.push(((link.number, vec![2; length], buffer), refusal));
        }
    }
    let good = second.write_block(5, &[9; 32], 394).expect("a block");
    for place in 0..394 {
        let mut row = good.clone();
        row[place] |= 2;
        faults.push(((5, row.clone(), 31), 3));
        faults.push(((5, row.clone(), 32), 4));
        let far = inverted(&row, &[(place + 1) % 394, (place + 2) % 394]);
        faults.push(((5, far, 32), 4));
        faults.push(((5, row[1..].to_vec(), 0), 2));
    }
    faults
}

/// A request to read a slot burst: what came, bytes of the buffer.
pub type SlotRequest = (Vec<u8>, usize);

/// Fewer than 86 bits, then a non-bit among the 86, nine wrong in the training, no word near, a word of
/// no slot burst, the length of the rest, a buffer too short, a non-bit in the rest, and at last bits
/// that no valid block's image is near to. What comes behind the training comes also where eight bits
/// of it are wrong.
pub fn reading_slots(second: &Second) -> Vec<(SlotRequest, Refusal)> {
    let training = bits(&second.training);
    let last: Vec<usize> = (TRAINING - 9..TRAINING).collect();
    [
        up_to_the_training(second, &inverted(&training, &last)),
        behind_the_training(second, &training),
        behind_the_training(second, &inverted(&training, &last[1..])),
    ]
    .concat()
}

fn non_bits_behind(row: &[u8], count: usize) -> Vec<u8> {
    [row, &vec![2; count]].concat()
}

/// The word of link 5 with eight places wrong.
fn far_from_all(second: &Second) -> Vec<u8> {
    inverted(&bits(second.words.of(5)), &[0, 1, 2, 3, 4, 5, 6, 7])
}

/// The refusals 2, 4 and 5 of the head, under a training that is refused.
fn up_to_the_training(second: &Second, training: &[u8]) -> Vec<(SlotRequest, Refusal)> {
    let word = bits(second.words.of(5));
    let far = far_from_all(second);
    let good = second.write_slot(5, &[3; 32], 480).expect("a burst");
    let refused = |rest: &[u8]| [training, rest].concat();
    vec![
        ((vec![], 0), 2),
        ((vec![2; 85], 0), 2),
        ((good[..85].to_vec(), 32), 2),
        ((refused(&far[1..]), 0), 2),
        ((vec![2; 86], 0), 4),
        ((non_bits_behind(&[0; 85], 1), 0), 4),
        ((non_bits_behind(&refused(&far[1..]), 400), 0), 4),
        ((non_bits_behind(&refused(&word[1..]), 395), 32), 4),
        ((vec![0; 86], 0), 5),
        ((vec![0; 480], 0), 5),
        ((refused(&bits(second.words.of(4))), 0), 5),
        ((refused(&word), 0), 5),
        ((refused(&good[TRAINING..]), 31), 5),
        ((refused(&good[TRAINING..]), 32), 5),
        ((non_bits_behind(&refused(&far), 300), 0), 5),
        ((non_bits_behind(&refused(&word), 394), 32), 5),
    ]
}

/// The refusals that come behind a training that is read, under this one.
pub fn behind_the_training(second: &Second, training: &[u8]) -> Vec<(SlotRequest, Refusal)> {
    let word = |number: usize| bits(second.words.of(number));
    let head = |word: Vec<u8>| [training, &word].concat();
    let far = far_from_all(second);
    let good = second.write_slot(5, &[3; 32], 480).expect("a burst");
    let good = [training, &good[TRAINING..]].concat();
    let two_wrong = inverted(&good, &[HEAD, HEAD + 9]);
    vec![
        ((head(far.clone()), 0), 6),
        ((non_bits_behind(&head(far), 394), 31), 6),
        ((head(word(8)), 0), 1),
        ((head(word(4)), 0), 1),
        ((non_bits_behind(&head(word(20)), 402), 7), 1),
        ((head(word(5)), 0), 2),
        ((good[..479].to_vec(), 0), 2),
        ((non_bits_behind(&head(word(5)), 393), 0), 2),
        ((non_bits_behind(&head(word(5)), 395), 0), 2),
        ((non_bits_behind(&head(word(6)), 394), 0), 2),
        ((non_bits_behind(&head(word(7)), 394), 0), 2),
        ((non_bits_behind(&head(word(5)), 394), 0), 3),
        ((non_bits_behind(&head(word(5)), 394), 31), 3),
        ((non_bits_behind(&head(word(6)), 906), 79), 3),
        ((non_bits_behind(&head(word(7)), 1418), 127), 3),
        ((good.clone(), 31), 3),
        ((two_wrong.clone(), 31), 3),
        ((non_bits_behind(&head(word(5)), 394), 32), 4),
        ((non_bits_behind(&good[..479], 1), 32), 4),
        ((non_bits_behind(&two_wrong[..479], 1), 32), 4),
        ((two_wrong, 32), 7),
    ]
}
