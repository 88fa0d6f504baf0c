//! Lines of numbers, by the million: a line is put together in an array, in few steps for each number.

/// 00 to 99, two digits each.
const PAIRS: [[u8; 2]; 100] = {
    let mut pairs = [[0; 2]; 100];
    let mut number = 0;
    while number < 100 {
        pairs[number] = [b'0' + (number / 10) as u8, b'0' + (number % 10) as u8];
        number += 1;
    }
    pairs
};

/// How much of a short text is copied, whatever its length: a copy of constant length takes one step.
const SHORT: usize = 16;

/// A text that is added often.
pub struct Text {
    first: [u8; SHORT],
    rest: Vec<u8>,
    length: usize,
}

impl Text {
    pub fn new(text: &str) -> Text {
        let mut first = [0; SHORT];
        let length = text.len().min(SHORT);
        first[..length].copy_from_slice(&text.as_bytes()[..length]);
        Text { first, rest: text.as_bytes()[length..].to_vec(), length }
    }
}

/// How long a line can get: more than 20 numbers take, with the names of their columns.
const LONGEST: usize = 2048;

/// A line, or a part of one.
pub struct Line {
    bytes: [u8; LONGEST],
    length: usize,
}

impl Line {
    pub fn new() -> Line {
        Line { bytes: [0; LONGEST], length: 0 }
    }

    pub fn clear(&mut self) {
        self.length = 0;
    }

    pub fn bytes(&self) -> &[u8] {
        &self.bytes[..self.length]
    }

    #[inline(always)]
    fn put<const N: usize>(&mut self, bytes: [u8; N]) {
        self.bytes[self.length..self.length + N].copy_from_slice(&bytes);
        self.length += N;
    }

    #[inline(always)]
    pub fn text(&mut self, text: &Text) {
        self.bytes[self.length..self.length + SHORT].copy_from_slice(&text.first);
        self.length += text.length;
        if !text.rest.is_empty() {
            self.bytes[self.length..self.length + text.rest.len()].copy_from_slice(&text.rest);
            self.length += text.rest.len();
        }
    }

    /// Adds a number.
    #[inline(always)]
    pub fn number(&mut self, number: u32) {
        if number < 100 {
            self.first_pair(number);
        } else if number < 10_000 {
            self.first_pair(number / 100);
            self.pair(number % 100);
        } else {
            self.long_number(number);
        }
    }

    /// Adds a number of any length.
    pub fn wide_number(&mut self, number: u64) {
        match u32::try_from(number) {
            Ok(number) => self.number(number),
            Err(_) => {
                self.wide_number(number / 10_000);
                let low = (number % 10_000) as u32;
                self.pair(low / 100);
                self.pair(low % 100);
            }
        }
    }

    fn long_number(&mut self, number: u32) {
        let [high, low] = [number / 10_000, number % 10_000];
        self.number(high);
        self.pair(low / 100);
        self.pair(low % 100);
    }

    /// Adds a number under 100, with as many digits as it takes.
    #[inline(always)]
    fn first_pair(&mut self, number: u32) {
        let pair = PAIRS[number as usize];
        let skipped = usize::from(number < 10);
        self.put([pair[skipped], pair[1]]);
        self.length -= skipped;
    }

    /// Adds two digits.
    #[inline(always)]
    fn pair(&mut self, number: u32) {
        self.put(PAIRS[number as usize]);
    }

    /// Adds a number that may be negative.
    #[inline(always)]
    pub fn signed(&mut self, number: i32) {
        self.put([b'-']);
        self.length -= usize::from(number >= 0);
        self.number(number.unsigned_abs());
    }

    /// Adds microdegrees as degrees with six decimals.
    #[inline(always)]
    pub fn degrees(&mut self, microdegrees: i32) {
        self.put([b'-']);
        self.length -= usize::from(microdegrees >= 0);
        let [whole, decimals] = [microdegrees.unsigned_abs() / 1_000_000, microdegrees.unsigned_abs() % 1_000_000];
        self.number(whole);
        self.put([b'.']);
        self.pair(decimals / 10_000);
        self.pair(decimals / 100 % 100);
        self.pair(decimals % 100);
    }
}

#[cfg(test)]
mod tests {
    use super::*;

    fn text(add: impl Fn(&mut Line)) -> String {
        let mut line = Line::new();
        add(&mut line);
        String::from_utf8(line.bytes().to_vec()).unwrap()
    }

    #[test]
    fn numbers_are_those_of_the_standard_library() {
        let tens = (0..10).map(|power| 10u32.pow(power));
        for number in tens.flat_map(|ten| [ten - 1, ten, ten + 1]).chain(0..20_000).chain([u32::MAX, 1 << 31]) {
            assert_eq!(text(|line| line.number(number)), number.to_string());
            assert_eq!(text(|line| line.signed(number as i32)), (number as i32).to_string());
            let wide = u64::from(number) * 4_000_000_007;
            assert_eq!(text(|line| line.wide_number(wide)), wide.to_string());
        }
    }

    #[test]
    fn degrees_have_six_decimals() {
        let degrees =
            [(0, "0.000000"), (-1, "-0.000001"), (77_826_694, "77.826694"), (359_999_999, "359.999999"), (-90_000_000, "-90.000000")];
        for (microdegrees, due) in degrees {
            assert_eq!(text(|line| line.degrees(microdegrees)), due);
        }
    }

    #[test]
    fn texts_of_any_length() {
        for length in 0..40 {
            let due: String = ('a'..).take(length).collect();
            assert_eq!(text(|line| line.text(&Text::new(&due))), due);
        }
    }
}
