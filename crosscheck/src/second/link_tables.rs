//! Reads Tables 4, 5 and 6 of M.2092-1, what documents 01 and 02 print about the links, and the
//! numbers worked out from them. A row that is not just as expected is an error.

use crate::second::link_4::{Request, Table23};
use crate::second::links::{Clock, Link, Links};
use crate::second::tables::rows;
use std::iter;
use std::path::Path;
use std::str::FromStr;

/// A row of Table 4, or of document 01's list, which prints neither rates nor numbers of blocks.
#[derive(Clone, Debug, PartialEq)]
pub struct Row {
    pub number: u32,
    pub k: usize,
    pub k1: usize,
    pub k2: usize,
    pub primes: [usize; 8],
    pub pattern: String,
    pub tail: String,
}

/// A row of Table 4 with its other columns.
pub struct Table4Row {
    pub row: Row,
    pub rate: String,
    pub blocks: usize,
}

/// A row of Table 5 or of Table 6.
pub struct Flags {
    pub id: String,
    pub rate: String,
    pub clocks: Vec<Clock>,
}

pub struct LinkTables {
    pub table4: Vec<Table4Row>,
    pub table5: Vec<Flags>,
    pub table6: Vec<Flags>,
    pub table23: Table23,
    /// Document 01's list of links.
    pub listed: Vec<Row>,
    /// Document 02's K4.
    pub link_4: Request,
    /// Document 01's sentence: each pattern and the outputs that pass at its clocks.
    pub patterns: Vec<(String, Vec<Clock>)>,
    pub numbers: Vec<Numbers>,
}

/// A line of numbers.txt, which says where each number comes from.
#[derive(Debug, PartialEq)]
pub struct Numbers {
    pub link: u32,
    pub k: usize,
    pub bytes: usize,
    pub bits_over: usize,
    pub pattern: String,
    pub data_bits: usize,
    pub tail: String,
    pub tail_bits: usize,
    pub n: usize,
    /// The table that prints k, the data bits and the tail's bits.
    pub printed_in: Option<u32>,
}

impl LinkTables {
    /// Reads the tables, or fails the running test with the row at fault.
    pub fn read(folder: &Path) -> LinkTables {
        LinkTables::parsed(folder)
            .unwrap_or_else(|error| panic!("tables in {}: {error}", folder.display()))
    }

    fn parsed(folder: &Path) -> Result<LinkTables, String> {
        let rows = |name| rows(folder, name);
        Ok(LinkTables {
            table4: of_each(&rows("table4.txt")?, table4_row)?,
            table5: of_each(&rows("table5.txt")?, flags)?,
            table6: of_each(&rows("table6.txt")?, flags)?,
            table23: Table23::parsed(&rows("table23.txt")?)?,
            listed: listed(&rows("links.txt")?)?,
            link_4: Request::parsed(&rows("request_k4.txt")?)?,
            patterns: patterns(&rows("patterns.txt")?)?,
            numbers: of_each(&rows("numbers.txt")?, numbers)?,
        })
    }

    /// The row of an offered link: what Table 4 prints, but for link 4 with Table 23's k2.
    pub fn row(&self, number: u32) -> Row {
        let printed = &self.table4_row(number).row;
        match number {
            4 => self.table23.settled(printed),
            _ => printed.clone(),
        }
    }

    /// Link 4 and the links of document 01's list, each with its row.
    pub fn links(&self) -> Links {
        let listed = self.listed.iter().map(|listed| listed.number);
        let numbers = iter::once(4).chain(listed);
        Links::new(numbers.map(|number| self.link(number)).collect())
    }

    fn link(&self, number: u32) -> Link {
        let row = self.row(number);
        let pattern = clocks_of(&self.table5, &row.pattern);
        let tail = clocks_of(&self.table6, &row.tail);
        Link {
            number,
            k: row.k,
            k1: row.k1,
            k2: row.k2,
            primes: row.primes,
            pattern: pattern.to_vec(),
            tail: tail.try_into().expect("a tail has six clocks"),
        }
    }

    pub fn table4_row(&self, number: u32) -> &Table4Row {
        self.table4
            .iter()
            .find(|printed| printed.row.number == number)
            .unwrap_or_else(|| panic!("Table 4 has no link {number}"))
    }
}

fn clocks_of<'a>(table: &'a [Flags], id: &str) -> &'a [Clock] {
    let flags = table.iter().find(|flags| flags.id == id);
    &flags.unwrap_or_else(|| panic!("no flags {id:?}")).clocks
}

fn of_each<T>(rows: &[String], parse: fn(&str) -> Result<T, String>) -> Result<Vec<T>, String> {
    rows.iter().map(|row| parse(row)).collect()
}

/// Link, rate, k or k*blocks, k1 k2, eight primes, pattern, tail. A link may bear one mark *.
fn table4_row(row: &str) -> Result<Table4Row, String> {
    let columns: Vec<&str> = row.split('\t').collect();
    let [link, rate, length, factors, primes, pattern, tail] = columns[..] else {
        return Err(format!("not seven columns: {row:?}"));
    };
    let (k, blocks) = length.split_once('*').unwrap_or((length, "1"));
    Ok(Table4Row {
        row: numbered_row([
            link.trim_end_matches('*'),
            k,
            factors,
            primes,
            pattern,
            tail,
        ])?,
        rate: rate.to_string(),
        blocks: number(blocks)?,
    })
}

fn numbered_row(columns: [&str; 6]) -> Result<Row, String> {
    let [link, k, factors, primes, pattern, tail] = columns;
    let [k1, k2] = numbers_of(factors)?;
    Ok(Row {
        number: number(link)?,
        k: number(k)?,
        k1,
        k2,
        primes: numbers_of(primes)?,
        pattern: pattern.to_string(),
        tail: tail.to_string(),
    })
}

/// Pattern, rate, clocks of six flags.
fn flags(row: &str) -> Result<Flags, String> {
    let columns: Vec<&str> = row.split('\t').collect();
    let [id, rate, clocks] = columns[..] else {
        return Err(format!("not three columns: {row:?}"));
    };
    let clocks: Result<Vec<Clock>, String> = clocks
        .split(' ')
        .map(|clock| numbers_of(&clock.replace(';', " ")))
        .collect();
    Ok(Flags {
        id: id.to_string(),
        rate: rate.to_string(),
        clocks: clocks?,
    })
}

/// The sentence `S means the primes ...`, then | link | k | k1 k2 | primes or S | pattern, tail |.
fn listed(rows: &[String]) -> Result<Vec<Row>, String> {
    let [sentence, list @ ..] = rows else {
        return Err("no list of links".to_string());
    };
    let s = between(sentence, "S means the primes ", ".")?;
    list.iter()
        .map(|row| {
            let columns: Vec<&str> = between(row, "| ", " |")?.split(" | ").collect();
            let [link, k, factors, primes, flags] = columns[..] else {
                return Err(format!("not five columns: {row:?}"));
            };
            let (pattern, tail) = flags
                .split_once(", ")
                .ok_or(format!("no pattern and tail: {row:?}"))?;
            let primes = if primes == "S" { s } else { primes };
            numbered_row([link, k, factors, primes, pattern, tail])
        })
        .collect()
}

/// `... What passes is: 2: X Y0 Y1 Y'1, X Y0 Y'0 Y'1. 4: X Y0 Y'0. ... Tails are ...`
fn patterns(rows: &[String]) -> Result<Vec<(String, Vec<Clock>)>, String> {
    let [sentence] = rows else {
        return Err(format!("{} sentences on patterns, not 1", rows.len()));
    };
    let (_, listed) = sentence
        .split_once("What passes is: ")
        .ok_or(format!("no patterns: {sentence:?}"))?;
    let (listed, _) = listed
        .split_once(". Tails are")
        .ok_or(format!("no end of the patterns: {sentence:?}"))?;
    listed
        .split(". ")
        .map(|pattern| {
            let (id, clocks) = pattern
                .split_once(": ")
                .ok_or(format!("no pattern: {pattern:?}"))?;
            let clocks: Result<Vec<Clock>, String> = clocks.split(", ").map(passing).collect();
            Ok((id.to_string(), clocks?))
        })
        .collect()
}

/// The flags of the named outputs.
fn passing(outputs: &str) -> Result<Clock, String> {
    let mut clock = [0; 6];
    for output in outputs.split(' ') {
        let place = ["X", "Y0", "Y1", "X'", "Y'0", "Y'1"]
            .iter()
            .position(|name| *name == output)
            .ok_or(format!("no output {output:?}"))?;
        clock[place] += 1;
    }
    Ok(clock)
}

/// Link, k, bytes, bits over, pattern, data bits, tail, its bits, N, and the table that prints them
/// or -, with spaces between.
fn numbers(row: &str) -> Result<Numbers, String> {
    let columns: Vec<&str> = row.split_whitespace().collect();
    let [link, k, bytes, over, pattern, data, tail, tail_bits, n, printed_in] = columns[..] else {
        return Err(format!("not ten columns: {row:?}"));
    };
    let printed_in = match printed_in {
        "-" => None,
        table => Some(number(table)?),
    };
    Ok(Numbers {
        link: number(link)?,
        k: number(k)?,
        bytes: number(bytes)?,
        bits_over: number(over)?,
        pattern: pattern.to_string(),
        data_bits: number(data)?,
        tail: tail.to_string(),
        tail_bits: number(tail_bits)?,
        n: number(n)?,
        printed_in,
    })
}

fn between<'a>(text: &'a str, before: &str, behind: &str) -> Result<&'a str, String> {
    text.strip_prefix(before)
        .and_then(|text| text.strip_suffix(behind))
        .ok_or(format!("not {before:?} ... {behind:?}: {text:?}"))
}

pub fn number<T: FromStr>(printed: &str) -> Result<T, String> {
    printed
        .parse()
        .map_err(|_| format!("not a number: {printed:?}"))
}

/// Numbers with a space between them.
pub fn numbers_of<const COUNT: usize>(printed: &str) -> Result<[usize; COUNT], String> {
    let numbers: Result<Vec<usize>, String> = printed.split(' ').map(number).collect();
    numbers?
        .try_into()
        .map_err(|_| format!("not {COUNT} numbers: {printed:?}"))
}
