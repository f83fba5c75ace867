//! The image of a block: the two encoders, what passes of them, the ending, the scrambler
//! (M.2092-1, Annex 2, 1.2.4 and 1.2.6; document 01, "From datagram to block").

use crate::second::encoder::Encoder;
use crate::second::interleaver::pi;
use crate::second::links::{Clock, Link};
use crate::second::scrambler::scrambled;
use std::iter::repeat_n;

pub fn image(link: &Link, block: &[bool]) -> Vec<bool> {
    scrambled(&coded(link, block))
}

/// The image before it is scrambled.
pub fn coded(link: &Link, block: &[bool]) -> Vec<bool> {
    assert_eq!(block.len(), link.k, "not a block of link {}", link.number);
    let mut first = Encoder::new();
    let mut second = Encoder::new();
    let mut coded = Vec::new();
    for s in 1..=link.k {
        let [x, y0, y1] = first.clock(block[s - 1]);
        let [x_, y0_, y1_] = second.clock(block[pi(link, s) - 1]);
        pass(link.passing(s), [x, y0, y1, x_, y0_, y1_], &mut coded);
    }
    let (of_first, of_second) = link.tail.split_at(3);
    for &clock in of_first {
        let [x, y0, y1] = first.ending_clock();
        pass(clock, [x, y0, y1, false, false, false], &mut coded);
    }
    for &clock in of_second {
        let [x_, y0_, y1_] = second.ending_clock();
        pass(clock, [false, false, false, x_, y0_, y1_], &mut coded);
    }
    coded
}

/// Lays down of each output as many copies as pass, side by side.
fn pass(clock: Clock, outputs: [bool; 6], coded: &mut Vec<bool>) {
    for (copies, output) in clock.into_iter().zip(outputs) {
        coded.extend(repeat_n(output, copies));
    }
}

/// The k bits that stand in an image.
pub fn data(link: &Link, image: &[bool]) -> Vec<bool> {
    data_of_coded(link, &scrambled(image))
}

/// The k bits that stand in an image before it is scrambled.
pub fn data_of_coded(link: &Link, coded: &[bool]) -> Vec<bool> {
    let places = link.data_places();
    places.into_iter().map(|place| coded[place]).collect()
}
