//! The coordinates of a modulation's points, in two texts: one number a line, label 0 first.
use crate::failure::Failure;
use crate::files::{Content, Files};
use crate::number::Number;
use crate::words::PointWords;
use s3frame::{Constellation, Modulation, Refusal};
use std::path::Path;

/// The most octets that a text may have.
const MOST_OCTETS: usize = 1 << 16;

/// The numbers of a text, label 0 first, with the lines where they stand, and what messages call its file.
struct List {
    name: String,
    lines: Vec<usize>,
    numbers: Vec<f32>,
}

impl List {
    /// Reads a text. One octet more than it may have is asked for, so that a longer one is seen to be so.
    fn open(files: &mut Files, word: &Path) -> Result<List, Failure> {
        let mut input = files.open(Some(word), Content::Text)?;
        let mut text = vec![0; MOST_OCTETS + 1];
        let length = input.fill(&mut text)?;
        let numbers = numbers_of(&text[..length]).map_err(|wrong| Failure::new(input.name(), wrong))?;
        let (lines, numbers) = numbers.into_iter().unzip();
        Ok(List { name: input.name().to_string(), lines, numbers })
    }

    /// What is wrong with the number of a label that cannot be used, if that is so.
    fn fault(&self, label: u8) -> Option<&'static str> {
        match self.numbers[usize::from(label)] {
            number if number.is_nan() => Some("is not a number"),
            number if number.is_infinite() => Some("is infinite"),
            _ => None,
        }
    }
}

/// The numbers of a text with their lines, counted from 1, or what is wrong with its form. Octets that are no UTF-8 may stand
/// in lines that do not count.
fn numbers_of(text: &[u8]) -> Result<Vec<(usize, f32)>, String> {
    if text.len() > MOST_OCTETS {
        return Err(format!("the text has more than {MOST_OCTETS} octets"));
    }
    let mut numbers = Vec::new();
    for (line, place) in text.split(|octet| *octet == b'\n').zip(1..) {
        let line = String::from_utf8_lossy(line);
        let word = line.trim();
        if !word.is_empty() && !word.starts_with('#') {
            numbers.push((place, word.parse().map_err(|_| format!("line {place}: no number"))?));
        }
    }
    Ok(numbers)
}

/// The coordinates of all labels of a modulation.
pub struct Coordinates {
    modulation: Modulation,
    in_phase: List,
    quadrature: List,
}

impl Coordinates {
    /// Reads both texts. The library is asked whether they have a number for each label, and whether the first symbol has a
    /// number that it may have: it looks at both though there are no labels.
    pub fn open(files: &mut Files, words: &PointWords, modulation: Modulation) -> Result<Coordinates, Failure> {
        let in_phase = List::open(files, &words.in_phase)?;
        let quadrature = List::open(files, &words.quadrature)?;
        let coordinates = Coordinates { modulation, in_phase, quadrature };
        let asked = coordinates.constellation().points(words.symbol.value, &[], &mut [], &mut []);
        asked.map_err(|refusal| coordinates.refused_all(refusal, &words.symbol))?;
        Ok(coordinates)
    }

    /// The points as they are lent to the library.
    pub fn constellation(&self) -> Constellation<'_> {
        let Coordinates { modulation, in_phase, quadrature } = self;
        Constellation { modulation: *modulation, in_phase: &in_phase.numbers, quadrature: &quadrature.numbers }
    }

    /// What to say where the points are refused whatever the labels are.
    fn refused_all(&self, refusal: Refusal, symbol: &Number) -> Failure {
        let (modulation, labels) = (self.modulation, self.modulation.points());
        match [&self.in_phase, &self.quadrature].into_iter().find(|list| list.numbers.len() != labels) {
            Some(List { name, numbers, .. }) => {
                let wrong = format!("{modulation} has {labels} labels, and this has {} numbers", numbers.len());
                Failure::refused(name, refusal, wrong)
            }
            None => {
                Failure::refused(format!("symbol {symbol}"), refusal, format!("{modulation} counts symbols from 1"))
            }
        }
    }

    /// What to say where the points of a slot's labels are refused: which is the first label without a point, and where its
    /// number stands that cannot be used. The library is asked of each label alone.
    pub fn refused(&self, refusal: Refusal, labels: &[u8], slot: &str) -> Failure {
        let refuses = |label: &u8| self.constellation().point(*label, 1).is_err();
        let label = labels.iter().copied().find(refuses).expect("labels are refused where one is");
        let fault = |list| List::fault(list, label).map(|fault| (list, fault));
        let (list, fault) = fault(&self.in_phase).or_else(|| fault(&self.quadrature)).expect("a label with a fault");
        let line = list.lines[usize::from(label)];
        let binary = binary(self.modulation, label.into());
        Failure::refused(
            &list.name,
            refusal,
            format!("line {line}, of label {label} ({binary}), {fault}, and {slot} uses it"),
        )
    }
}

/// A label in binary, all its bits.
pub fn binary(modulation: Modulation, label: usize) -> String {
    format!("{label:00$b}", modulation.number() as usize)
}

#[cfg(test)]
mod tests {
    use super::*;

    /// The lines and the bits of the numbers.
    fn bits(text: &[u8]) -> Vec<(usize, u32)> {
        numbers_of(text).expect("numbers").into_iter().map(|(line, number)| (line, number.to_bits())).collect()
    }

    fn list(name: &str, numbers: &[f32]) -> List {
        List { name: name.to_string(), lines: (3..3 + numbers.len()).collect(), numbers: numbers.to_vec() }
    }

    fn coordinates(modulation: Modulation, in_phase: &[f32], quadrature: &[f32]) -> Coordinates {
        Coordinates { modulation, in_phase: list("i", in_phase), quadrature: list("q", quadrature) }
    }

    #[test]
    fn numbers_with_their_lines() {
        assert_eq!(bits(b"1\n-0\n"), [(1, 0x3F800000), (2, 0x80000000)]);
        assert_eq!(bits(b"# \xE9\n\n 0.1\t\r\n\r\n#2\n  # 3\n1e-46\n+.5"), [(3, 0x3DCCCCCD), (7, 0), (8, 0x3F000000)]);
        assert_eq!(bits(b"inf\n-inf\n3.5e38"), [(1, 0x7F800000), (2, 0xFF800000), (3, 0x7F800000)]);
        assert!(numbers_of(b"nan").expect("a number")[0].1.is_nan());
        assert_eq!(bits(b""), []);
    }

    #[test]
    fn the_float_next_to_a_number_is_taken() {
        // Between 1 and the float behind it: half of the way is even, and so 1; any more is the other.
        let half = b"1.000000059604644775390625";
        assert_eq!(bits(half), [(1, 0x3F800000)]);
        assert_eq!(bits(&[&half[..], b"0001"].concat()), [(1, 0x3F800001)]);
    }

    #[test]
    fn a_line_that_is_no_number_is_named() {
        for line in ["one", "1 2", "1,5", "0x1", "1 # one", "--1", "1f", "\u{FFFD}"] {
            assert_eq!(
                numbers_of(format!("#\n1\n{line}\n").as_bytes()),
                Err("line 3: no number".to_string()),
                "{line}"
            );
        }
        assert_eq!(numbers_of(b"\xE9"), Err("line 1: no number".to_string()));
        assert_eq!(numbers_of(&[b'\n'; MOST_OCTETS]), Ok(Vec::new()));
        assert!(numbers_of(&[b'\n'; MOST_OCTETS + 1]).expect_err("a text too long").contains("65536"));
    }

    #[test]
    fn the_list_of_another_length_is_named() {
        let symbol: Number = "0".parse().expect("a number");
        let said = |in_phase: &[f32], quadrature: &[f32]| {
            coordinates(Modulation::Bpsk, in_phase, quadrature).refused_all(Refusal::Length, &symbol).to_string()
        };
        let wrong = "refused 4 length: π/2-shift BPSK has 2 labels, and this has";
        assert_eq!(said(&[1.0; 3], &[1.0; 3]), format!("i: {wrong} 3 numbers"));
        assert_eq!(said(&[1.0; 2], &[]), format!("q: {wrong} 0 numbers"));
        assert_eq!(said(&[1.0; 2], &[1.0; 2]), "symbol 0: refused 4 length: π/2-shift BPSK counts symbols from 1");
    }

    #[test]
    fn the_first_label_without_a_point_is_named() {
        let (nan, inf) = (f32::NAN, f32::INFINITY);
        let coordinates = coordinates(Modulation::Qpsk, &[1.0, inf, 1.0, nan], &[1.0, nan, -inf, 1.0]);
        let said = |labels: &[u8]| coordinates.refused(Refusal::Coordinate, labels, "slot 9").to_string();
        assert_eq!(
            said(&[0, 0, 2, 1]),
            "q: refused 18 coordinate: line 5, of label 2 (10), is infinite, and slot 9 uses it"
        );
        assert!(said(&[1, 2]).starts_with("i: refused 18 coordinate: line 4, of label 1 (01), is infinite"));
        assert!(said(&[0, 3]).starts_with("i: refused 18 coordinate: line 6, of label 3 (11), is not a number"));
    }

    #[test]
    fn labels_have_all_their_bits() {
        assert_eq!(binary(Modulation::Bpsk, 1), "1");
        assert_eq!(binary(Modulation::Apsk32, 5), "00101");
    }
}
