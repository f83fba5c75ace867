//! Reads what Tables 7 to 11 of M.2092-1 print about the bits of each link. A row that is not just
//! as expected is an error.

use crate::second::tables::rows;
use std::path::Path;

/// How the rows of a table begin, in their order.
const ROWS: [&str; 5] = [
    "链路ID",
    "信道比特",
    "填充+FEC尾部",
    "FEC解码器输入比特",
    "FEC输出比特",
];

/// A link's column, where the table prints one block for it.
#[derive(Debug, PartialEq)]
pub struct Column {
    pub table: u32,
    pub link: u32,
    /// The channel bits without the fill.
    pub n: usize,
    pub tail_bits: usize,
    pub data_bits: usize,
    pub k: usize,
}

/// Reads the columns, or fails the running test with the row at fault.
pub fn read(folder: &Path) -> Vec<Column> {
    rows(folder, "channel_bits.txt")
        .and_then(|rows| columns(&rows))
        .unwrap_or_else(|error| panic!("channel bits in {}: {error}", folder.display()))
}

fn columns(rows: &[String]) -> Result<Vec<Column>, String> {
    let mut columns = Vec::new();
    for (table, rows) in (7..).zip(rows.chunks(ROWS.len())) {
        let cells: Vec<Vec<&str>> = rows.iter().map(|row| row.split('\t').collect()).collect();
        let begin_well = rows
            .iter()
            .zip(ROWS)
            .all(|(row, name)| row.starts_with(name));
        if rows.len() != ROWS.len() || !begin_well {
            return Err(format!("not the five rows of Table {table}: {rows:?}"));
        }
        for place in 1..cells[0].len() {
            columns.extend(column(table, &cells, place));
        }
    }
    Ok(columns)
}

/// The column at this place, if it is one of a link with one block.
fn column(table: u32, cells: &[Vec<&str>], place: usize) -> Option<Column> {
    let (link, _) = cells[0][place]
        .split_once(' ')
        .unwrap_or((cells[0][place], ""));
    let number = |row: usize| -> Option<usize> { cells[row].get(place)?.parse().ok() };
    // One cell of fill + tail may stand for several links: an empty one is that to its left.
    let mut cells_so_far = cells[2].iter().take(place + 1);
    let fill_and_tail = cells_so_far.rfind(|cell| !cell.is_empty())?;
    let (fill, tail) = fill_and_tail.split_once('+')?;
    Some(Column {
        table,
        link: link.parse().ok()?,
        n: number(1)?.checked_sub(fill.parse().ok()?)?,
        tail_bits: tail.parse().ok()?,
        data_bits: number(3)?,
        k: number(4)?,
    })
}
