//! Text that is written into lent bytes, line by line.

/// The lines that are written so far.
pub struct Lines<'a, const SIZE: usize> {
    text: &'a mut [u8; SIZE],
    pub length: usize,
}

impl<const SIZE: usize> Lines<'_, SIZE> {
    /// No lines.
    pub fn new(text: &mut [u8; SIZE]) -> Lines<'_, SIZE> {
        Lines { text, length: 0 }
    }

    /// A word.
    pub fn word(&mut self, word: &[u8]) {
        self.text[self.length..][..word.len()].copy_from_slice(word);
        self.length += word.len();
    }

    /// A word, a number and the end of the line.
    pub fn numbered(&mut self, word: &[u8], number: u32) {
        self.word(word);
        self.decimal(number);
        self.word(b"\n");
    }

    /// A number in decimal.
    pub fn decimal(&mut self, number: u32) {
        if number >= 10 {
            self.decimal(number / 10);
        }
        self.word(&[b'0' + (number % 10) as u8]);
    }
}
