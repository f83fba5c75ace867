//! Reads the worked slot burst of M.2092-1, Annex 3, 8 (f), and turns its symbols back into bits
//! (Annex 2, 1.2.9).

use crate::second::tables::rows;
use std::path::Path;

/// The datagram of the worked burst without its twenty zero bytes, and its check.
pub const DATAGRAM: [u8; 12] = [
    0x50, 0x0E, 0xB7, 0x9A, 0x2A, 0x75, 0xBC, 0xD1, 0x62, 0x00, 0x00, 0x32,
];
pub const CHECK: [u8; 4] = [0x1B, 0xC6, 0x0E, 0xD5];

/// The datagram with its twenty zero bytes.
pub fn datagram() -> Vec<u8> {
    [&DATAGRAM[..], &[0; 20]].concat()
}

/// The two constellations that take turns, one on the diagonals and one on the axes.
#[derive(Clone, Copy, Debug, PartialEq)]
pub enum Constellation {
    Diagonals,
    Axes,
}

pub struct Symbol {
    pub constellation: Constellation,
    pub bits: [bool; 2],
}

/// The symbols under each heading.
pub struct WorkedBurst {
    pub training: Vec<Symbol>,
    pub word: Vec<Symbol>,
    pub data: Vec<Symbol>,
}

impl WorkedBurst {
    /// Reads the symbols, or fails the running test with the row at fault.
    pub fn read(folder: &Path) -> WorkedBurst {
        rows(folder, "worked_burst.txt")
            .and_then(|rows| under_headings(&rows))
            .unwrap_or_else(|error| panic!("worked burst in {}: {error}", folder.display()))
    }

    pub fn symbols(&self) -> Vec<&Symbol> {
        let parts = [&self.training, &self.word, &self.data];
        parts.into_iter().flatten().collect()
    }

    pub fn bits(&self) -> Vec<bool> {
        let symbols = self.symbols();
        symbols.iter().flat_map(|symbol| symbol.bits).collect()
    }
}

/// The rows under a heading are one text: a number may be cut by the end of its row.
fn under_headings(rows: &[String]) -> Result<WorkedBurst, String> {
    let text = rows.iter().map(|row| row.trim_start()).collect::<String>();
    let parts: Vec<&str> = ["--同步符号:", "--链路ID符号:", "--数据符号:"]
        .into_iter()
        .try_fold(vec![text.as_str()], |mut parts, heading| {
            let last = parts.pop()?;
            let (before, behind) = last.split_once(heading)?;
            parts.extend([before, behind]);
            Some(parts)
        })
        .ok_or("a heading is missing")?;
    let ["", training, word, data] = parts[..] else {
        return Err("something stands before the first heading".to_string());
    };
    Ok(WorkedBurst {
        training: symbols(training)?,
        word: symbols(word)?,
        data: symbols(data)?,
    })
}

/// Symbols printed as `(+0.7,+0.7),(+1.0,+0.0),`.
fn symbols(printed: &str) -> Result<Vec<Symbol>, String> {
    printed
        .strip_prefix('(')
        .and_then(|text| text.strip_suffix("),"))
        .ok_or(format!("not symbols in brackets: {printed:?}"))?
        .split("),(")
        .map(symbol)
        .collect()
}

fn symbol(point: &str) -> Result<Symbol, String> {
    use Constellation::{Axes, Diagonals};
    let (constellation, bits) = match point {
        "+0.7,+0.7" => (Diagonals, [true, true]),
        "-0.7,+0.7" => (Diagonals, [false, true]),
        "-0.7,-0.7" => (Diagonals, [false, false]),
        "+0.7,-0.7" => (Diagonals, [true, false]),
        "+1.0,+0.0" => (Axes, [true, true]),
        "+0.0,+1.0" => (Axes, [false, true]),
        "-1.0,+0.0" => (Axes, [false, false]),
        "+0.0,-1.0" => (Axes, [true, false]),
        _ => return Err(format!("no such point: {point:?}")),
    };
    Ok(Symbol {
        constellation,
        bits,
    })
}
