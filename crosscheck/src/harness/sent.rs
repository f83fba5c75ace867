//! Datagrams as senders make them: messages with fill before, between and behind them and zeros at
//! the end, and the same with a lie in it or behind its messages.

use crate::harness::random::Random;
use crate::harness::requests::messages::Numbers;

/// The types of Table 33 but 0, which begins the zero fill, and 81, which is passed over.
const TYPES: [u8; 11] = [4, 13, 20, 21, 22, 74, 75, 76, 90, 92, 93];

/// A datagram as a true sender makes it: where its messages start, the places of the 81s before,
/// between and behind them, and where its zero fill begins.
struct Sent {
    datagram: Vec<u8>,
    starts: Vec<usize>,
    fill: Vec<usize>,
    zeros: usize,
}

impl Sent {
    fn lay_message(&mut self, length: usize, random: &mut Random) {
        self.starts.push(self.datagram.len());
        self.datagram.push(TYPES[random.below(TYPES.len())]);
        self.datagram.extend((length as u16).to_be_bytes());
        self.datagram.extend(random.bytes(length - 3));
    }

    fn lay_fill(&mut self, count: usize) {
        let end = self.datagram.len() + count;
        self.fill.extend(self.datagram.len()..end);
        self.datagram.resize(end, 81);
    }
}

/// How many 81s stand together: mostly none or one, now and then up to 40, about 100 or about 250.
fn run_of_fill(random: &mut Random) -> usize {
    match random.below(16) {
        0..=5 => 0,
        6..=11 => 1,
        12 | 13 => 2 + random.below(39),
        14 => 60 + random.below(80),
        _ => 190 + random.below(120),
    }
}

fn sent(random: &mut Random) -> Sent {
    let total = random.below(1401);
    let mut sent = Sent {
        datagram: Vec::new(),
        starts: Vec::new(),
        fill: Vec::new(),
        zeros: 0,
    };
    sent.lay_fill(run_of_fill(random).min(total));
    while total - sent.datagram.len() >= 7 && random.below(8) > 0 {
        let room = total - sent.datagram.len();
        let longest = match random.below(4) {
            0 => room,
            _ => room.min(40),
        };
        sent.lay_message(7 + random.below(longest - 6), random);
        sent.lay_fill(run_of_fill(random).min(total - sent.datagram.len()));
    }
    sent.zeros = sent.datagram.len();
    if random.below(2) == 0 {
        sent.datagram.resize(total, 0);
    }
    sent
}

/// One of these places, if there is any.
fn one_of(places: &[usize], random: &mut Random) -> Option<usize> {
    match places.len() {
        0 => None,
        count => Some(places[random.below(count)]),
    }
}

/// The same with one thing changed: a message's length or type, a byte of the fill or of the zero
/// fill, any byte, or the datagram's end.
fn lying(sent: &Sent, random: &mut Random) -> Vec<u8> {
    let mut datagram = sent.datagram.clone();
    if datagram.is_empty() {
        return datagram;
    }
    let zeros: Vec<usize> = (sent.zeros..datagram.len()).collect();
    let (message, any) = (one_of(&sent.starts, random), random.below(256) as u8);
    let (fill, zero) = (one_of(&sent.fill, random), one_of(&zeros, random));
    match (random.below(8), message, fill, zero) {
        (0 | 1, Some(start), _, _) => {
            let length = lying_length(&datagram, start, random);
            datagram[start + 1..start + 3].copy_from_slice(&length.to_be_bytes());
        }
        (2, Some(start), _, _) => datagram[start] = [0, 81, any][random.below(3)],
        (3, _, Some(place), _) => datagram[place] = [0, any][random.below(2)],
        (4 | 5, _, _, Some(place)) => datagram[place] = [81, any][random.below(2)],
        (6, ..) => {
            let place = random.below(datagram.len());
            datagram[place] = any;
        }
        _ => {
            let cut = 1 + random.below(datagram.len().min(9));
            datagram.truncate(datagram.len() - cut);
        }
    }
    datagram
}

/// The length that the message at this place tells.
fn told_at(datagram: &[u8], start: usize) -> u16 {
    u16::from_be_bytes([datagram[start + 1], datagram[start + 2]])
}

/// A length that is too short, or near the true one, or near what is left, or large, or any.
fn lying_length(datagram: &[u8], start: usize, random: &mut Random) -> u16 {
    let told = told_at(datagram, start);
    let left = (datagram.len() - start) as u16;
    let any = random.below(65_536) as u16;
    let lies = [
        0,
        random.below(7) as u16,
        6,
        7,
        told - 1,
        told + 1,
        left - 1,
        left,
        left + 1,
        256,
        256 + 7,
        900,
        told + 256,
        65_535,
        any,
    ];
    lies[random.below(lies.len())]
}

/// A datagram of whole messages, their starts and lengths, and what a step to the message behind them,
/// which lies, answers.
pub struct LieBehind {
    pub datagram: Vec<u8>,
    pub whole: Vec<(usize, usize)>,
    pub lie: Numbers,
}

pub fn lie_behind(random: &mut Random) -> LieBehind {
    let Sent {
        mut datagram,
        starts,
        zeros,
        ..
    } = sent(random);
    datagram.truncate(zeros);
    let lengths = starts.iter().map(|&start| told_at(&datagram, start).into());
    let whole = starts.iter().copied().zip(lengths).collect();
    let start = datagram.len();
    let (number, missing) = lay_lie(&mut datagram, random);
    LieBehind {
        datagram,
        whole,
        lie: [number, start, 0, missing],
    }
}

/// One or two bytes of a message, or one with a length below 7, or one with a length past the end:
/// answers the number of the refusal and the missing bytes.
fn lay_lie(datagram: &mut Vec<u8>, random: &mut Random) -> (usize, usize) {
    let kind = TYPES[random.below(TYPES.len())];
    let (number, told, left) = match random.below(3) {
        0 => (11, random.below(65_536), 1 + random.below(2)),
        1 => (9, random.below(7), 3 + random.below(20)),
        _ => {
            let lengths = [10, 300, 65_529][random.below(3)];
            let told = 7 + random.below(lengths);
            (12, told, 3 + random.below(told.min(300) - 3))
        }
    };
    let [high, low] = (told as u16).to_be_bytes();
    let message = [vec![kind, high, low], random.bytes(left)].concat();
    datagram.extend(&message[..left]);
    match number {
        12 => (12, told - left),
        _ => (number, 0),
    }
}

/// 81s and then zeros, with up to two other bytes somewhere.
fn mostly_fill(random: &mut Random) -> Vec<u8> {
    let passed_over = random.below(701);
    let length = passed_over + random.below(701);
    let mut datagram = vec![81; passed_over];
    datagram.resize(length, 0);
    for _ in 0..random.below(3).min(length) {
        let place = random.below(length);
        datagram[place] = [0, 81, random.below(256) as u8][random.below(3)];
    }
    datagram
}

/// True ones, lying ones, random bytes, and bytes that are mostly fill.
pub fn some_datagram(random: &mut Random) -> Vec<u8> {
    match random.below(8) {
        0 => sent(random).datagram,
        1..=5 => lying(&sent(random), random),
        6 => {
            let length = random.below(701);
            random.bytes(length)
        }
        _ => mostly_fill(random),
    }
}
