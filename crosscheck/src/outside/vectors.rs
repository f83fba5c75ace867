//! Reads the vectors that packaged libraries made (crosscheck/outside/README.md). A row that is not
//! just as expected is an error.

use crate::second::bits::plain_bytes;
use std::fs;
use std::path::Path;

/// One encoder: its input, and X, Y0 and Y1 of all clocks and of the three of the ending.
pub struct EncoderRun {
    pub input: Vec<bool>,
    pub outputs: [Vec<bool>; 3],
}

pub struct Check {
    pub covered: Vec<bool>,
    pub check: Vec<bool>,
}

pub struct Block {
    pub link: u32,
    pub datagram: Vec<u8>,
    pub check: Vec<bool>,
    /// As it is sent, scrambled.
    pub image: Vec<bool>,
}

pub struct Outside {
    pub encoder: Vec<EncoderRun>,
    pub checks: Vec<Check>,
    /// What the scrambler puts on the longest image.
    pub scrambler: Vec<bool>,
    pub blocks: Vec<Block>,
}

impl Outside {
    /// Reads the vectors in the tables' folder `outside`, or fails the running test with the row at
    /// fault.
    pub fn read(tables: &Path) -> Outside {
        let folder = tables.join("outside");
        Outside::parsed(&folder)
            .unwrap_or_else(|error| panic!("vectors in {}: {error}", folder.display()))
    }

    fn parsed(folder: &Path) -> Result<Outside, String> {
        let [scrambler] = &vectors(folder, "scrambler.txt", scrambler)?[..] else {
            return Err("scrambler.txt: not one row".to_string());
        };
        Ok(Outside {
            encoder: vectors(folder, "encoder.txt", encoder_run)?,
            checks: vectors(folder, "checks.txt", check)?,
            scrambler: scrambler.clone(),
            blocks: vectors(folder, "images.txt", block)?,
        })
    }
}

/// One vector for each line of the file, but for the remarks, which open with #.
fn vectors<T, const COLUMNS: usize>(
    folder: &Path,
    name: &str,
    parse: fn([&str; COLUMNS]) -> Result<T, String>,
) -> Result<Vec<T>, String> {
    let text = fs::read_to_string(folder.join(name)).map_err(|error| format!("{name}: {error}"))?;
    let lines = text.lines().enumerate();
    lines
        .filter(|(_, line)| !line.starts_with('#'))
        .map(|(n, line)| {
            let columns: Vec<&str> = line.split('\t').collect();
            let columns = columns.try_into();
            columns
                .map_err(|_| format!("not {COLUMNS} columns"))
                .and_then(parse)
                .map_err(|error| format!("{name}, line {}: {error}", n + 1))
        })
        .collect()
}

fn encoder_run([count, input, x, y0, y1]: [&str; 5]) -> Result<EncoderRun, String> {
    let count = number(count)?;
    let output = |digits| bits_of_hex(digits, count + 3);
    Ok(EncoderRun {
        input: bits_of_hex(input, count)?,
        outputs: [output(x)?, output(y0)?, output(y1)?],
    })
}

fn check([count, covered, check]: [&str; 3]) -> Result<Check, String> {
    Ok(Check {
        covered: bits_of_hex(covered, number(count)?)?,
        check: bits_of_hex(check, 32)?,
    })
}

fn scrambler([count, put_on]: [&str; 2]) -> Result<Vec<bool>, String> {
    bits_of_hex(put_on, number(count)?)
}

fn block([link, datagram, check, count, image]: [&str; 5]) -> Result<Block, String> {
    let bytes = if datagram == NONE {
        0
    } else {
        datagram.len() / 2
    };
    Ok(Block {
        link: number(link)? as u32,
        datagram: plain_bytes(&bits_of_hex(datagram, 8 * bytes)?),
        check: bits_of_hex(check, 32)?,
        image: bits_of_hex(image, number(count)?)?,
    })
}

fn number(printed: &str) -> Result<usize, String> {
    printed
        .parse()
        .map_err(|_| format!("not a number: {printed:?}"))
}

/// How a row without a bit is printed.
const NONE: &str = "-";

/// So many bits, four to a digit, the most significant first; behind the last one stand zeros.
fn bits_of_hex(printed: &str, count: usize) -> Result<Vec<bool>, String> {
    let digits = if printed == NONE { "" } else { printed };
    let mut bits = Vec::new();
    for c in digits.chars() {
        let digit = c
            .to_digit(16)
            .ok_or(format!("not a hexadecimal digit: {c:?}"))?;
        bits.extend([8, 4, 2, 1].map(|weight| digit / weight % 2 == 1));
    }
    if bits.len() != count.div_ceil(4) * 4 || bits[count..].contains(&true) {
        return Err(format!("not {count} bits: {printed:?}"));
    }
    bits.truncate(count);
    Ok(bits)
}
