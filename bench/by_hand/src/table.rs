//! The generator's table as plain columns.
use std::error::Error;

const HEADER: [&str; 5] = ["c0:int", "c1:int", "c2:int", "c3:int", "v:vec"];
const BAD_CELL: &str = "a cell is no number";

#[derive(Default)]
pub struct Table {
    /// `c0` to `c3`.
    pub ints: [Vec<i64>; 4],
    elements: Vec<i64>,
    ends: Vec<usize>,
}

impl Table {
    pub fn entries(&self) -> usize {
        self.ends.len()
    }

    pub fn vector(&self, entry: usize) -> &[i64] {
        let begin = if entry == 0 { 0 } else { self.ends[entry - 1] };
        &self.elements[begin..self.ends[entry]]
    }
}

pub fn read(name: &str) -> Result<Table, Box<dyn Error>> {
    let bytes = std::fs::read(name)?;
    let mut reader = csv::Reader::from_reader(bytes.as_slice());
    if reader.headers()? != HEADER.as_slice() {
        return Err("this isn't the generator's table".into());
    }
    let mut table = Table::default();
    let mut record = csv::ByteRecord::new();
    while reader.read_byte_record(&mut record)? {
        for (column, cell) in table.ints.iter_mut().zip(&record) {
            column.push(number(cell).ok_or(BAD_CELL)?);
        }
        let cell = &record[4];
        if !cell.is_empty() {
            for element in cell.split(|byte| *byte == b';') {
                table.elements.push(number(element).ok_or(BAD_CELL)?);
            }
        }
        table.ends.push(table.elements.len());
    }
    Ok(table)
}

#[inline]
fn number(cell: &[u8]) -> Option<i64> {
    std::str::from_utf8(cell).ok()?.parse().ok()
}
