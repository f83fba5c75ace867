//! Link 4 (document 02, K4): Table 4 prints k = 952 beside 4 times 240, and Table 23 settles k2.

use crate::second::link_tables::{number, numbers_of, Row};

/// What Table 23 of M.2092-1 prints of slots with FEC.
pub struct Table23 {
    /// The payload bits in one, two and three slots, and to the satellite.
    pub payloads: [usize; 4],
    pub check: usize,
    /// The FEC bits in slots, and to the satellite.
    pub tails: [usize; 2],
}

/// How the rows that are copied from Table 23 begin, in their order.
const ROWS: [&str; 3] = ["包括填充的数据有效载荷", "CRC\t", "FEC\t"];

impl Table23 {
    pub fn parsed(rows: &[String]) -> Result<Table23, String> {
        let begin_well = rows
            .iter()
            .zip(ROWS)
            .all(|(row, name)| row.starts_with(name));
        let bits: Vec<&str> = rows
            .iter()
            .filter_map(|row| row.split('\t').nth(1))
            .collect();
        let ([payloads, check, tails], true) = (&bits[..], begin_well) else {
            return Err(format!("not the three rows of Table 23: {rows:?}"));
        };
        let tails = tails.replace("TER: ", "").replace("SAT: ", "");
        Ok(Table23 {
            payloads: with_fec(payloads)?,
            check: number(check)?,
            tails: numbers_of(&tails)?,
        })
    }

    /// Table 4's row of link 4, with the k2 that the satellite's payload and its check make of it.
    pub fn settled(&self, printed: &Row) -> Row {
        let [.., payload] = self.payloads;
        Row {
            k2: (payload + self.check) / printed.k1,
            ..printed.clone()
        }
    }
}

/// `1时隙352 / 256 2时隙864 / 640 ...`: the numbers behind the strokes.
fn with_fec(payloads: &str) -> Result<[usize; 4], String> {
    let behind = payloads.split(" / ").skip(1);
    let numbers: Vec<&str> = behind.filter_map(|part| part.split(' ').next()).collect();
    numbers_of(&numbers.join(" "))
}

/// The numbers of link 4 in the request's own words.
#[derive(Debug, PartialEq)]
pub struct Request {
    pub payload: usize,
    pub check: usize,
    pub k: usize,
    pub k2: usize,
    pub k2_printed: usize,
    pub primes: [usize; 8],
    pub pattern: String,
    pub tail: String,
    pub data_bits: usize,
    /// The tail bits of Table 23, and N with these.
    pub tail_printed: usize,
    pub n_printed: usize,
}

impl Request {
    /// `... Table 23 settles its row: 920 payload bits and 32 check bits make 952, so k2 is ...`
    pub fn parsed(rows: &[String]) -> Result<Request, String> {
        let [text] = rows else {
            return Err(format!("{} requests, not 1", rows.len()));
        };
        let word = |before, behind| cut(text, before, behind).map(str::to_string);
        let amount = |before, behind| number(&cut(text, before, behind)?.replace(',', ""));
        Ok(Request {
            payload: amount("settles its row: ", " payload bits")?,
            check: amount(" payload bits and ", " check bits")?,
            k: amount(" check bits make ", ", so")?,
            k2: amount("so k2 is ", ", not")?,
            k2_printed: amount("not the printed ", ". ")?,
            primes: numbers_of(cut(text, "Primes ", ",")?)?,
            pattern: word(", pattern ", ",")?,
            tail: word(", tail ", ". ")?,
            data_bits: amount("The data clocks give ", " bits")?,
            tail_printed: amount("and with the ", " tail bits of Table 23")?,
            n_printed: amount("the image has ", ";")?,
        })
    }
}

/// What stands between two marks of a text.
fn cut<'a>(text: &'a str, before: &str, behind: &str) -> Result<&'a str, String> {
    text.split_once(before)
        .and_then(|(_, rest)| rest.split_once(behind))
        .map(|(between, _)| between)
        .ok_or(format!("not {before:?} ... {behind:?}: {text:?}"))
}
