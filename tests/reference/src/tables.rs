//! The eleven parity tables as printed in document 002: tables.txt has a title and a line for each row. And tables as
//! document 01 lends them: one list of numbers, for each row its count and then its addresses.
use crate::ldpc::GROUP;
use crate::slot::LENGTH_WRONG;

pub type Table = Vec<Vec<usize>>;

/// The table of each rate, rate 1 first.
pub fn tables() -> Vec<Table> {
    let mut tables: Vec<Table> = Vec::new();
    for line in include_str!("../tables.txt").lines() {
        if line.starts_with("rate") {
            tables.push(Vec::new());
        } else {
            let row = line.split(' ').map(|word| word.parse().expect("an address")).collect();
            tables.last_mut().expect("a title first").push(row);
        }
    }
    tables
}

/// A table as it is lent.
fn lent(table: &Table) -> Vec<u16> {
    let row = |row: &Vec<usize>| std::iter::once(row.len()).chain(row.clone()).collect::<Vec<_>>();
    table.iter().flat_map(row).map(|number| number as u16).collect()
}

/// The printed tables of these rates as one lent list.
pub fn printed(rates: impl IntoIterator<Item = usize>) -> Vec<u16> {
    let tables = tables();
    rates.into_iter().flat_map(|rate| lent(&tables[rate - 1])).collect()
}

/// Copies the printed tables of these rates into an area of their length.
pub fn copy(rates: impl IntoIterator<Item = usize>, area: &mut [u16]) -> u8 {
    let tables = printed(rates);
    if area.len() != tables.len() {
        return LENGTH_WRONG;
    }
    area.copy_from_slice(&tables);
    0
}

/// The next row of a lent list, if it has document 01's form: 1 to 16 different addresses below the limit.
fn row(limit: usize, numbers: &mut impl Iterator<Item = u16>) -> Option<Vec<usize>> {
    let count = usize::from(numbers.next()?);
    let row: Vec<usize> = numbers.take(count).map(usize::from).collect();
    let complete = (1..=16).contains(&count) && row.len() == count;
    let different = (1..row.len()).all(|k| !row[..k].contains(&row[k]));
    (complete && different && row.iter().all(|&address| address < limit)).then_some(row)
}

/// The next table of a lent list: the addresses of a row are below the number of parity bits.
fn table(rows: usize, numbers: &mut impl Iterator<Item = u16>) -> Option<Table> {
    (0..rows).map(|_| row(GROUP * (120 - rows), numbers)).collect()
}

/// The tables of a lent list, each with its number of rows, one after the other; none if a table breaks its form or if
/// anything follows the last.
pub fn taken(rows: &[usize], numbers: &[u16]) -> Option<Vec<Table>> {
    let mut numbers = numbers.iter().copied();
    let tables = rows.iter().map(|&rows| table(rows, &mut numbers)).collect::<Option<Vec<Table>>>()?;
    numbers.next().is_none().then_some(tables)
}

#[cfg(test)]
mod tests {
    use super::*;
    use crate::ldpc::ROWS;

    #[test]
    fn each_rate_has_its_rows() {
        let rows: Vec<usize> = tables().iter().map(Vec::len).collect();
        assert_eq!(rows, [41, 49, 61, 73, 81, 89, 93, 97, 101, 105, 109]);
        assert_eq!(rows, ROWS);
    }

    #[test]
    fn the_printed_tables_keep_the_form() {
        assert_eq!(taken(&ROWS, &printed(1..=11)), Some(tables()));
    }

    /// Whether a list is accepted whose last row at rate 11 is the one given, after 108 rows of the address 0.
    fn accepted(last: &[u16]) -> bool {
        taken(&[109], &[&[1, 0].repeat(108), last].concat()).is_some()
    }

    #[test]
    fn rows_at_the_edges_of_the_form() {
        let sixteen: Vec<u16> = (16..=31).collect();
        assert!(accepted(&[1, 4113]) && accepted(&[&[16], &sixteen[..]].concat()));
        assert!(!accepted(&[1, 4114]) && !accepted(&[&[17], &sixteen[..], &[32]].concat()));
        assert!(!accepted(&[0]) && !accepted(&[]) && !accepted(&[2, 5]) && !accepted(&[2, 5, 5]));
        assert!(!accepted(&[1, 5, 1]), "nothing follows the last row");
    }

    #[test]
    fn the_first_row_of_rate_5_is_that_of_the_worked_example() {
        let row = [4958, 6639, 6721, 8238, 9540, 9550, 10491, 11742, 11641, 12092, 13056, 13460];
        assert_eq!(tables()[4][0], row);
    }
}
