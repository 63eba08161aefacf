//! The inner code of document 002, 2.2.1.4 (2): parity bits gathered by a table of addresses, then added up.

pub const GROUP: usize = 374;

/// Table 2.2.1-4: how many of 120 groups of bits stand before the parity, rate 1 first.
pub const ROWS: [usize; 11] = [41, 49, 61, 73, 81, 89, 93, 97, 101, 105, 109];

/// Where the bit `m` of a row is added for one address of that row: q is 120 less the number of rows.
pub fn position(rows: usize, address: usize, m: usize) -> usize {
    let q = 120 - rows;
    (address + m * q) % (GROUP * q)
}

/// The parity bits of a run of 374 bits for each row of the table.
pub fn parity(table: &[Vec<usize>], bits: &[u8]) -> Vec<u8> {
    let rows = table.len();
    let mut parity = vec![0; GROUP * (120 - rows)];
    for (row, group) in table.iter().zip(bits.chunks(GROUP)) {
        for (m, bit) in group.iter().enumerate() {
            for &address in row {
                parity[position(rows, address, m)] ^= bit;
            }
        }
    }
    for i in 1..parity.len() {
        parity[i] ^= parity[i - 1];
    }
    parity
}

/// The lowest failing position: of the first parity bit received that is not the one made anew, counted from 0.
pub fn lowest_failing(made: &[u8], received: &[u8]) -> Option<u16> {
    let wrong = made.iter().zip(received).position(|(made, received)| made != received);
    wrong.map(|position| u16::try_from(position).expect("no rate has so many parity bits"))
}

#[cfg(test)]
mod tests {
    use super::*;
    use crate::tables::{tables, Table};

    #[test]
    fn positions_of_the_documents() {
        assert_eq!(position(81, 4958, 1), 4997);
        assert_eq!(position(61, 22065, 1), 58);
    }

    /// The parity at rate 11 of bit 0 alone, where its row has one address.
    fn of_bit_0(address: usize) -> Vec<u8> {
        let mut bits = vec![0; GROUP * 109];
        bits[0] = 1;
        parity(&vec![vec![address]; 109], &bits)
    }

    #[test]
    fn address_0_alone_sets_every_bit() {
        assert_eq!(of_bit_0(0), vec![1; 4114]);
    }

    #[test]
    fn the_last_address_alone_sets_the_last_bit() {
        let bits = of_bit_0(4113);
        assert_eq!((bits[4113], bits.iter().filter(|&&bit| bit == 1).count()), (1, 1));
    }

    #[test]
    fn the_lowest_of_failing_positions() {
        let lowest = |wrong: &[usize]| {
            let mut received = vec![0; 29546];
            wrong.iter().for_each(|&position| received[position] ^= 1);
            lowest_failing(&[0; 29546], &received)
        };
        assert_eq!([lowest(&[]), lowest(&[0])], [None, Some(0)]);
        assert_eq!([lowest(&[14773]), lowest(&[29545])], [Some(14773), Some(29545)]);
        assert_eq!([lowest(&[29545, 29544]), lowest(&[700, 3, 29545])], [Some(29544), Some(3)]);
    }

    /// The lowest failing position where one bit before the parity is not the one that the parity was made of.
    fn of_wrong_bit(table: &Table, bit: usize) -> Option<u16> {
        let mut bits: Vec<u8> = (0..GROUP * table.len()).map(|k| (k * k % 7 % 2) as u8).collect();
        let sent = parity(table, &bits);
        bits[bit] ^= 1;
        lowest_failing(&parity(table, &bits), &sent)
    }

    /// A wrong bit shows first at the lowest position that it reaches, since every parity bit adds the ones before it: worked
    /// from the row 4958 .. 13460 of rate 5, whose steps are 39 and whose positions end before 14586.
    #[test]
    fn a_wrong_bit_shows_at_the_lowest_position_that_it_reaches() {
        let table = &tables()[4];
        assert_eq!(of_wrong_bit(table, 0), Some(4958));
        assert_eq!(of_wrong_bit(table, 1), Some(4997));
        assert_eq!(of_wrong_bit(table, 28), Some(4958 + 28 * 39), "13460 has come to 14552");
        assert_eq!(of_wrong_bit(table, 29), Some(5), "13460 has come round");
        assert_eq!(of_wrong_bit(table, 373), Some(4919), "one step before bit 0");
    }

    #[test]
    fn any_bit_shows_at_the_least_of_its_row_s_positions() {
        for table in tables() {
            let rows = table.len();
            for bit in [0, 175, 374, GROUP * rows - 199, GROUP * rows - 6, GROUP * rows - 1] {
                let reached = table[bit / GROUP].iter().map(|&address| position(rows, address, bit % GROUP));
                assert_eq!(of_wrong_bit(&table, bit).map(usize::from), reached.min());
            }
        }
    }
}
