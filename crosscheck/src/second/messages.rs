//! Messages in a datagram (M.2092-1, Annex 4, 4.9; document 01, "Messages in a datagram", as document
//! 02's K1 and K3 change it).

use crate::second::words::Refusal;

/// What a step finds at a position or behind the fill that it passes over there.
#[derive(Clone, Copy, Debug, PartialEq)]
pub enum Step {
    Finished,
    Message { start: usize, length: usize },
}

/// Why a step is refused: by a number alone, or because the message at this place lies.
#[derive(Clone, Copy, Debug, PartialEq)]
pub enum Refused {
    Plain(Refusal),
    Lie {
        number: Refusal,
        start: usize,
        missing: usize,
    },
}

pub fn step(datagram: &[u8], position: usize) -> Result<Step, Refused> {
    if position > datagram.len() {
        return Err(Refused::Plain(8));
    }
    let fill = datagram[position..].iter().take_while(|&&byte| byte == 81);
    let start = position + fill.count();
    let lie = |number, missing| {
        Err(Refused::Lie {
            number,
            start,
            missing,
        })
    };
    match &datagram[start..] {
        [] => Ok(Step::Finished),
        [0, behind @ ..] => match behind.iter().all(|&byte| byte == 0) {
            true => Ok(Step::Finished),
            false => Err(Refused::Plain(10)),
        },
        [_] | [_, _] => lie(11, 0),
        [_type, 0, 0..=6, ..] => lie(9, 0),
        left @ [_type, high, low, ..] => {
            let length = 256 * usize::from(*high) + usize::from(*low);
            match length.saturating_sub(left.len()) {
                0 => Ok(Step::Message { start, length }),
                missing => lie(12, missing),
            }
        }
    }
}
