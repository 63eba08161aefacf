//! Numbers of the command line.
use std::fmt::{self, Display};
use std::str::FromStr;

/// A number of at most 32 bits, with the word that said it.
#[derive(Clone, Debug)]
pub struct Number {
    word: String,
    pub value: u32,
}

impl FromStr for Number {
    type Err = &'static str;

    fn from_str(word: &str) -> Result<Number, &'static str> {
        let (digits, base) = word.strip_prefix("0x").map_or((word, 10), |digits| (digits, 16));
        // Without this a plus sign would pass.
        let all_digits = digits.chars().all(|digit| digit.is_digit(base));
        let value = u32::from_str_radix(digits, base).ok().filter(|_| all_digits);
        let value = value.ok_or("no number of at most 32 bits, in decimal or behind 0x")?;
        Ok(Number { word: word.to_string(), value })
    }
}

impl Display for Number {
    fn fmt(&self, to: &mut fmt::Formatter) -> fmt::Result {
        to.write_str(&self.word)
    }
}

#[cfg(test)]
mod tests {
    use super::*;

    #[test]
    fn numbers_in_decimal_or_behind_0x() {
        let value = |word: &str| word.parse::<Number>().ok().map(|number| number.value);
        assert_eq!(["0", "19088743", "0x1234567", "0xaBc"].map(value), [0, 0x1234567, 0x1234567, 0xABC].map(Some));
        assert_eq!(["4294967295", "0xFFFFFFFF"].map(value), [Some(u32::MAX); 2]);
        for word in ["", "0x", "12a", "0x1g", "+1", "-1", "0x+1", " 1", "1 ", "0X1", "4294967296", "0x100000000"] {
            assert_eq!(value(word), None, "{word:?}");
        }
    }
}
