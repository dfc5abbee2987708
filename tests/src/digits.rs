//! Fractional-bit frames, tool 11 (document 02, R-14), put together from 001: table 7-28, and the equations of 7.11.3. Nothing here
//! is shared with a reader or a writer.

use crate::forms::{Bits, Field, Form, LENGTHS};
use second::gen::{sample_of, Prng};

/// A row of table 7-28: its distinctive values, and its prefix code for each of the [`LENGTHS`], 0 where there is none.
#[derive(Debug, PartialEq, Eq)]
pub struct Digits {
    pub values: &'static [i32],
    prefixes: [u8; 5],
}

/// Table 7-28, in its own order.
pub const TABLE: [Digits; 12] = [
    Digits { values: &[0, 1], prefixes: [2, 14, 20, 24, 28] },
    Digits { values: &[-2, 0], prefixes: [4, 16, 22, 26, 30] },
    Digits { values: &[-2, -1, 0], prefixes: [6, 18, 0, 0, 0] },
    Digits { values: &[-1, 0, 1], prefixes: [7, 19, 0, 0, 0] },
    Digits { values: &[-2, 0, 1], prefixes: [5, 17, 23, 27, 31] },
    Digits { values: &[-2, -1, 0, 1], prefixes: [3, 15, 21, 25, 29] },
    Digits { values: &[-3, -2, 0, 1], prefixes: [8, 0, 0, 0, 0] },
    Digits { values: &[-2, 0, 1, 2], prefixes: [10, 0, 0, 0, 0] },
    Digits { values: &[-2, -1, 0, 1, 2], prefixes: [9, 0, 0, 0, 0] },
    Digits { values: &[-3, -2, 0, 1, 2], prefixes: [12, 0, 0, 0, 0] },
    Digits { values: &[-3, -2, -1, 0, 1, 2], prefixes: [11, 0, 0, 0, 0] },
    Digits { values: &[-4, -3, -2, 0, 1, 2], prefixes: [13, 0, 0, 0, 0] },
];

impl Digits {
    /// The row's name in tables.
    pub fn name(&self) -> String {
        format!("{:?}", self.values)
    }

    /// The first octet of a frame of this row, if the length has it.
    pub fn first(&self, length: usize) -> Option<u8> {
        let at = LENGTHS.iter().position(|known| *known == length)?;
        Some(self.prefixes[at]).filter(|prefix| *prefix > 0)
    }

    /// The octets of a frame of this row.
    pub fn octets(&self, length: usize) -> usize {
        let bits = self.width().map_or(length * (self.base() / 2), |width| length / 5 * width);
        1 + bits / 8
    }

    /// R': how many values the row has.
    pub fn base(&self) -> usize {
        self.values.len()
    }

    pub fn least(&self) -> i32 {
        self.values[0]
    }

    pub fn greatest(&self) -> i32 {
        self.values[self.base() - 1]
    }

    pub fn has_minus_one(&self) -> bool {
        self.values.contains(&-1)
    }

    /// (7-77): what is left out of the range is -1, below all values from 0 on.
    pub fn digit(&self, value: i32) -> usize {
        let left_out = i32::from(self.least() < -1 && !self.has_minus_one());
        let digit = if value < -1 { value - self.least() } else { value - self.least() - left_out };
        digit as usize
    }

    /// Table 7-27: the bits of V, of five samples; none where a sample has bits of its own.
    pub fn width(&self) -> Option<usize> {
        match self.base() {
            3 => Some(8),
            5 => Some(12),
            6 => Some(13),
            _ => None,
        }
    }

    /// How many numbers V, and no more, are five digits.
    pub fn numbers(&self) -> usize {
        self.base().pow(5)
    }

    /// (7-78).
    pub fn number(&self, five: &[i32]) -> usize {
        five.iter().enumerate().map(|(at, value)| self.digit(*value) * self.base().pow(at as u32)).sum()
    }

    /// (8-26): the five values of a number.
    pub fn five(&self, mut number: usize) -> [i32; 5] {
        let mut five = [0; 5];
        for at in (0..5).rev() {
            let power = self.base().pow(at as u32);
            five[at] = self.values[number / power];
            number %= power;
        }
        five
    }

    /// The first octet alone.
    pub fn start(&self, length: usize) -> Option<Bits> {
        let mut bits = Bits::default();
        bits.field(Field::Prefix);
        bits.number(usize::from(self.first(length)?), 8);
        Some(bits)
    }

    /// The form of numbers that are all the row's, if their length has it.
    pub fn form(&self, numbers: &[i32], law: u32) -> Option<Form> {
        let mut bits = self.start(numbers.len())?;
        match self.width() {
            Some(width) => {
                for (at, five) in numbers.chunks(5).enumerate() {
                    bits.field(Field::Fives(at));
                    bits.number(self.number(five), width);
                }
            }
            None => {
                bits.field(Field::Digits);
                let width = self.base() / 2;
                numbers.iter().for_each(|value| bits.number(self.digit(*value), width));
            }
        }
        let samples = numbers.iter().map(|number| sample_of(*number, law)).collect();
        Some(Form { bits, tool: 11, samples })
    }
}

/// The rows that a length has.
pub fn rows(length: usize) -> Vec<&'static Digits> {
    TABLE.iter().filter(|row| row.first(length).is_some()).collect()
}

/// The row of a frame, if its length has one: the least, the greatest, and whether -1 comes decide.
pub fn row_of(numbers: &[i32]) -> Option<&'static Digits> {
    let (least, greatest) = (*numbers.iter().min()?, *numbers.iter().max()?);
    rows(numbers.len())
        .into_iter()
        .find(|row| row.least() == least && row.greatest() == greatest && row.has_minus_one() == numbers.contains(&-1))
}

/// How the samples of a frame stand to the row that its first octet says. A writer makes the first alone.
pub const WAYS: [&str; 5] = ["as written", "without the least", "without the greatest", "without -1", "one value"];

/// Numbers of a row in one of the [`WAYS`]; none where the row has no -1, or -1 is its least.
pub fn some_numbers(row: &Digits, way: &str, length: usize, rng: &mut Prng) -> Option<Vec<i32>> {
    let left_out = match way {
        "without the least" => Some(row.least()),
        "without the greatest" => Some(row.greatest()),
        "without -1" if row.has_minus_one() && row.least() < -1 => Some(-1),
        "without -1" => return None,
        _ => None,
    };
    let mut values: Vec<i32> = row.values.iter().copied().filter(|value| Some(*value) != left_out).collect();
    if way == "one value" {
        values = vec![*rng.pick(&values)];
    }
    // Now and then 0, or another value, is by far the commonest.
    let (common, one_in) = (*rng.pick(&values), *rng.pick(&[1, 1, 4, 20]));
    let mut draw = || if rng.chance(1, one_in) { *rng.pick(&values) } else { common };
    let mut numbers: Vec<i32> = (0..length).map(|_| draw()).collect();
    let told = [row.least(), row.greatest(), -1];
    let mut places: Vec<usize> = (0..length).collect();
    rng.shuffle(&mut places);
    let there = told.iter().filter(|value| way != "one value" && values.contains(value));
    there.zip(places).for_each(|(value, place)| numbers[place] = *value);
    Some(numbers)
}

/// A form of any row of a length, in any of the [`WAYS`].
pub fn some_digits(length: usize, law: u32, rng: &mut Prng) -> Form {
    loop {
        let (row, way) = (*rng.pick(&rows(length)), *rng.pick(&WAYS));
        if let Some(numbers) = some_numbers(row, way, length, rng) {
            return row.form(&numbers, law).expect("the length has the row");
        }
    }
}

#[cfg(test)]
mod tests {
    use super::{rows, TABLE};
    use crate::forms::LENGTHS;

    /// Thirty prefixes, 02 to 1F, each once.
    #[test]
    fn the_table_is_whole() {
        let of_length = |length: &usize| rows(*length).into_iter().filter_map(|row| row.first(*length)).collect();
        let mut all: Vec<u8> = LENGTHS.iter().flat_map::<Vec<u8>, _>(of_length).collect();
        all.sort();
        assert_eq!(all, (0x02..=0x1F).collect::<Vec<u8>>());
    }

    #[test]
    fn digits_are_places_among_the_values() {
        for row in &TABLE {
            for (digit, value) in row.values.iter().enumerate() {
                assert_eq!(row.digit(*value), digit, "{row:?}");
            }
            for number in 0..row.numbers() {
                assert_eq!(row.number(&row.five(number)), number, "{row:?}");
            }
            if let Some(width) = row.width() {
                assert!(row.numbers() <= 1 << width && row.numbers() > 1 << (width - 1));
            }
        }
    }

    /// Whole octets, at most 81, and always fewer than the samples as they are: so uncompressed never ties.
    #[test]
    fn forms_fill_octets() {
        let mut most = 0;
        for length in LENGTHS {
            for row in rows(length) {
                let form = row.form(&vec![row.least(); length], 1).unwrap();
                assert_eq!(form.bits.len(), 8 * row.octets(length));
                assert!(form.octets().len() < length + 1, "{row:?}, {length}");
                most = most.max(form.octets().len());
            }
        }
        assert_eq!(most, 81);
    }
}
