//! The training that opens a slot burst (M.2092-1, Annex 2, Table 1; document 01, "Slot bursts").

use crate::second::bits::from_digits;
use crate::second::tables::rows;
use std::path::Path;

/// The symbols as Table 1 and as document 01 print them.
pub struct Training {
    pub table1: Vec<bool>,
    pub document_01: Vec<bool>,
}

impl Training {
    /// Reads the symbols, or fails the running test with the row at fault.
    pub fn read(folder: &Path) -> Training {
        let parsed = || -> Result<Training, String> {
            Ok(Training {
                table1: table1(&rows(folder, "table1.txt")?)?,
                document_01: document_01(&rows(folder, "training.txt")?)?,
            })
        };
        parsed().unwrap_or_else(|error| panic!("training in {}: {error}", folder.display()))
    }

    /// Each symbol sent as two equal bits.
    pub fn bits(&self) -> Vec<bool> {
        let symbols = self.table1.iter();
        symbols.flat_map(|&symbol| [symbol, symbol]).collect()
    }
}

/// Use, number of symbols, symbols in groups, kind.
fn table1(rows: &[String]) -> Result<Vec<bool>, String> {
    let [row] = rows else {
        return Err(format!("{} rows of Table 1, not 1", rows.len()));
    };
    let columns: Vec<&str> = row.split('\t').collect();
    let ["ASM-TER", "27", symbols, _kind] = columns[..] else {
        return Err(format!("not the row of ASM-TER: {row:?}"));
    };
    from_digits(&symbols.replace(' ', ""))
}

fn document_01(rows: &[String]) -> Result<Vec<bool>, String> {
    let [sentence] = rows else {
        return Err(format!("{} training sentences, not 1", rows.len()));
    };
    let symbols = sentence
        .strip_prefix("A slot burst opens with the 27 training symbols ")
        .and_then(|text| text.split_once(','))
        .ok_or(format!("not the training sentence: {sentence:?}"))?;
    from_digits(symbols.0)
}
