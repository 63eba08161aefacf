//! The outer code of document 002, 2.2.1.4 (1): the remainder of the message times the 192nd power, by long division.

pub const BITS: usize = 192;

/// Table 2.2.1-3: each polynomial by the exponents of its terms.
const POLYNOMIALS: [&[usize]; 12] = [
    &[0, 1, 3, 12, 16],
    &[0, 2, 3, 4, 8, 9, 11, 12, 16],
    &[0, 2, 3, 7, 9, 10, 11, 13, 16],
    &[0, 1, 3, 6, 7, 11, 12, 13, 16],
    &[0, 1, 2, 3, 5, 7, 8, 9, 11, 13, 16],
    &[0, 1, 6, 7, 9, 10, 12, 13, 16],
    &[0, 1, 2, 6, 9, 10, 11, 15, 16],
    &[0, 1, 3, 6, 8, 9, 12, 15, 16],
    &[0, 1, 4, 6, 8, 10, 11, 12, 13, 15, 16],
    &[0, 1, 2, 4, 6, 8, 9, 10, 11, 15, 16],
    &[0, 6, 8, 9, 10, 13, 14, 15, 16],
    &[0, 1, 2, 3, 5, 6, 7, 10, 11, 15, 16],
];

/// The product of the twelve polynomials: 193 coefficients, highest power first.
pub fn generator() -> Vec<u8> {
    let mut product = vec![1];
    for exponents in POLYNOMIALS {
        let mut next = vec![0; product.len() + 16];
        for (power, &bit) in product.iter().enumerate() {
            for exponent in exponents {
                next[power + exponent] ^= bit;
            }
        }
        product = next;
    }
    product.reverse();
    product
}

/// The 192 BCH bits of a message, highest power first.
pub fn bch_bits(generator: &[u8], message: &[u8]) -> Vec<u8> {
    let mut dividend = message.to_vec();
    dividend.resize(message.len() + BITS, 0);
    for power in 0..message.len() {
        if dividend[power] == 1 {
            for (bit, coefficient) in dividend[power..].iter_mut().zip(generator) {
                *bit ^= coefficient;
            }
        }
    }
    dividend.split_off(message.len())
}

#[cfg(test)]
mod tests {
    use super::*;

    #[test]
    fn the_generator_has_degree_192() {
        let g = generator();
        assert_eq!((g.len(), g[0], g[BITS]), (BITS + 1, 1, 1));
    }

    #[test]
    fn a_zero_message_has_zero_bits() {
        assert_eq!(bch_bits(&generator(), &[0; 100]), [0; BITS]);
    }

    #[test]
    fn the_last_message_bit_gives_the_generator_without_its_top_term() {
        let mut message = [0; 100];
        message[99] = 1;
        assert_eq!(bch_bits(&generator(), &message), generator()[1..]);
    }
}
