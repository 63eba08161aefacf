//! Energy dispersal, document 002, 2.2.1.6: a run of bits added to what a shift register gives out, bit by bit.

/// Whether document 01 allows the settings: a mask whose highest bit is the top weight, and a start that is not 0 (from
/// which the register would never move) and fits the width.
pub fn allowed(width: u32, mask: u32, start: u32) -> bool {
    mask >> (width - 1) == 1 && start != 0 && start >> width == 0
}

/// The register after a bit: shifted up one place within its width, with the parity of what register and mask share.
pub fn step(width: u32, mask: u32, register: u32) -> u32 {
    let feedback = (register & mask).count_ones() % 2;
    ((register << 1) | feedback) % (1 << width)
}

/// Adds the register's bit of top weight to each bit, and gives back the register after the last.
pub fn disperse(width: u32, mask: u32, mut register: u32, bits: &mut [u8]) -> u32 {
    for bit in bits {
        *bit ^= (register >> (width - 1)) as u8;
        register = step(width, mask, register);
    }
    register
}

#[cfg(test)]
mod tests {
    use super::*;

    #[test]
    fn settings_at_the_edges() {
        for width in [15, 25] {
            let (top, above) = (1 << (width - 1), 1 << width);
            assert!(allowed(width, top, 1) && allowed(width, above - 1, above - 1));
            assert!(!allowed(width, top - 1, 1) && !allowed(width, above, 1) && !allowed(width, above | top, 1));
            assert!(!allowed(width, top, 0) && !allowed(width, top, above));
        }
    }

    #[test]
    fn a_lone_top_tap_gives_24_zeros_then_a_one() {
        let mut bits = [0; 25];
        disperse(25, 1 << 24, 1, &mut bits);
        assert_eq!(bits[..24], [0; 24]);
        assert_eq!(bits[24], 1);
    }

    #[test]
    fn the_register_after_a_slot_of_rate_1() {
        assert_eq!(disperse(25, 1 << 24, 1, &mut vec![0; 374 * 41]), 512);
    }

    #[test]
    fn the_register_after_a_tmcc_block() {
        assert_eq!(disperse(15, 1 << 14, 1, &mut vec![0; 9614]), 16384);
    }
}
