//! Reads the printed tables of M.2092-1 as they were copied from the document: each row stands
//! after its line number, and a row that is not just as expected is an error.

use crate::second::bits::from_digits;
use crate::second::words::{Word, Words, PLACES};
use std::fs;
use std::path::Path;

pub struct Tables {
    pub generator: [Word; 6],
    pub scrambling: Word,
    pub table3: [Word; 64],
}

impl Tables {
    /// Reads the tables, or fails the running test with the row at fault.
    pub fn read(folder: &Path) -> Tables {
        let rows = |name| rows(folder, name);
        let parsed = || -> Result<Tables, String> {
            Ok(Tables {
                generator: generator_rows(&rows("table2.txt")?)?,
                scrambling: scrambling_word(&rows("scrambling.txt")?)?,
                table3: printed_words(&rows("table3.txt")?)?,
            })
        };
        parsed().unwrap_or_else(|error| panic!("tables in {}: {error}", folder.display()))
    }

    /// The words that Table 2 and the scrambling word give.
    pub fn words(&self) -> Words {
        Words::new(&self.generator, &self.scrambling)
    }
}

/// The rows of the file of this name.
pub fn rows(folder: &Path, name: &str) -> Result<Vec<String>, String> {
    fs::read_to_string(folder.join(name))
        .map_err(|error| error.to_string())
        .and_then(|text| numbered_rows(&text))
        .map_err(|error| format!("{name}: {error}"))
}

/// The rows without their line numbers, which must rise; a line that opens with # is a remark.
fn numbered_rows(text: &str) -> Result<Vec<String>, String> {
    let mut rows = Vec::new();
    let mut last = 0;
    for line in text.lines().filter(|line| !line.starts_with('#')) {
        let (number, row) = line
            .split_once('\t')
            .ok_or(format!("no line number: {line:?}"))?;
        let number: u32 = number
            .parse()
            .map_err(|_| format!("bad line number: {line:?}"))?;
        if number <= last {
            return Err(format!("line number does not rise: {line:?}"));
        }
        last = number;
        rows.push(row.to_string());
    }
    Ok(rows)
}

fn generator_rows(rows: &[String]) -> Result<[Word; 6], String> {
    let words: Result<Vec<Word>, String> = rows.iter().map(|row| pairs(row)).collect();
    words?
        .try_into()
        .map_err(|_| format!("Table 2 has {} rows, not 6", rows.len()))
}

/// The one run of 32 binary digits in the sentence.
fn scrambling_word(rows: &[String]) -> Result<Word, String> {
    let [sentence] = rows else {
        return Err(format!("{} scrambling sentences, not 1", rows.len()));
    };
    let runs: Vec<&str> = sentence
        .split(|c| c != '0' && c != '1')
        .filter(|run| run.len() == PLACES)
        .collect();
    match runs[..] {
        [run] => digits(run),
        _ => Err(format!("not one run of 32 binary digits: {sentence:?}")),
    }
}

/// Row n holds n, its word, n + 32 and the word of that.
fn printed_words(rows: &[String]) -> Result<[Word; 64], String> {
    if rows.len() != 32 {
        return Err(format!("Table 3 has {} rows, not 32", rows.len()));
    }
    let mut words = [[false; PLACES]; 64];
    for (n, row) in rows.iter().enumerate() {
        let columns: Vec<&str> = row.split('\t').collect();
        let [left, left_word, right, right_word] = columns[..] else {
            return Err(format!("not four columns: {row:?}"));
        };
        if left != n.to_string() || right != (n + 32).to_string() {
            return Err(format!("not the row of {n} and {}: {row:?}", n + 32));
        }
        words[n] = pairs(left_word)?;
        words[n + 32] = pairs(right_word)?;
    }
    Ok(words)
}

/// A word printed as sixteen pairs of digits with a space between.
fn pairs(printed: &str) -> Result<Word, String> {
    if printed.split(' ').any(|pair| pair.len() != 2) {
        return Err(format!("not pairs of digits: {printed:?}"));
    }
    digits(&printed.replace(' ', ""))
}

/// A word written as 32 binary digits.
pub fn digits(written: &str) -> Result<Word, String> {
    from_digits(written)?
        .try_into()
        .map_err(|_| format!("not 32 binary digits: {written:?}"))
}
