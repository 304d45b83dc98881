//! A line of input, read number by number, and why it may have no answer of the Rust.

/// Why a case has no answer of the Rust.
#[derive(Debug, PartialEq)]
pub enum Stop {
    /// The line is no case.
    NoCase,
    /// Document 01 refuses the case.
    Refused,
    /// The Rust returned an error.
    Failed,
    /// The Rust panicked, with these words.
    Panicked(String),
}

/// Cells of the longest slice that may be lent.
const ROOM: usize = 70_000;
/// The same where an operation changes more slices than `replay` has slots for.
const SHORT_ROOM: usize = 16_384;
/// Records of the longest list of blocks that may be lent.
const RECORDS_ROOM: usize = 4_096;

/// What is left of a line: words with one blank between.
pub struct Line<'a>(std::str::Split<'a, char>);

impl<'a> Line<'a> {
    pub fn new(text: &'a str) -> Self {
        Line(text.split(' '))
    }

    /// The operation's name, the first word.
    pub fn name(&mut self) -> Result<&'a str, Stop> {
        self.0.next().ok_or(Stop::NoCase)
    }

    /// The next word as a decimal number of at most `largest`.
    fn up_to(&mut self, largest: usize) -> Result<usize, Stop> {
        let word = self.0.next().ok_or(Stop::NoCase)?;
        if !word.bytes().all(|byte| byte.is_ascii_digit()) {
            return Err(Stop::NoCase);
        }
        match word.parse() {
            Ok(number) if number <= largest => Ok(number),
            _ => Err(Stop::NoCase),
        }
    }

    /// A number, u16 like every number that 01 lends.
    pub fn number(&mut self) -> Result<usize, Stop> {
        self.up_to(u16::MAX.into())
    }

    fn slice(&mut self, room: usize, largest: usize) -> Result<Vec<usize>, Stop> {
        let length = self.up_to(room)?;
        (0..length).map(|_| self.up_to(largest)).collect()
    }

    /// A slice of numbers: its length and its cells.
    pub fn column(&mut self) -> Result<Vec<usize>, Stop> {
        self.slice(ROOM, u16::MAX.into())
    }

    /// A slice of numbers that is one of many that may change.
    pub fn short(&mut self) -> Result<Vec<usize>, Stop> {
        self.slice(SHORT_ROOM, u16::MAX.into())
    }

    /// A list of block records: its length and the three fields of each.
    pub fn records(&mut self) -> Result<Vec<[usize; 3]>, Stop> {
        let length = self.up_to(RECORDS_ROOM)?;
        (0..length).map(|_| Ok([self.number()?, self.number()?, self.number()?])).collect()
    }

    /// The starts of given lists, each u32.
    pub fn starts(&mut self) -> Result<Vec<usize>, Stop> {
        self.slice(ROOM, u32::MAX as usize)
    }

    /// A flag, 0 or 1.
    pub fn flag(&mut self) -> Result<bool, Stop> {
        Ok(self.up_to(1)? == 1)
    }

    /// A slice of bytes: its length and its bytes as numbers.
    pub fn bytes(&mut self) -> Result<Vec<usize>, Stop> {
        self.slice(ROOM, u8::MAX.into())
    }

    /// The line has no further word.
    pub fn end(&mut self) -> Result<(), Stop> {
        match self.0.next() {
            None => Ok(()),
            Some(_) => Err(Stop::NoCase),
        }
    }
}
