//! Prints the page of a day from its entries, as lines of text `HH:MM NUMBER NAME` in any order:
//!
//! ```sh
//! printf '10:30 3 SMITH\n09:05 7 OTWAY\n' | cargo run --release --offline --example day
//! ```
//!
//! The name is all that follows the number's space, one byte or more, and may have any. Empty lines
//! are left out. What can't be read as such a line, and what the library refuses, is said in words
//! on standard error; the program then prints no page and ends with status 1.

use std::error::Error;
use std::fmt;
use std::io::{self, Read, Write};
use std::process::ExitCode;

use hirtxonda::{Day, Entry};

/// A line that can't be read: its number, counted from 1, and why.
#[derive(Debug, PartialEq)]
struct BadLine {
    number: usize,
    why: &'static str,
}

impl fmt::Display for BadLine {
    fn fmt(&self, f: &mut fmt::Formatter<'_>) -> fmt::Result {
        write!(f, "line {}: {}", self.number, self.why)
    }
}

impl Error for BadLine {}

/// The number of one or more decimal digits, as far as 32 bits go.
fn decimal(digits: &[u8]) -> Option<u32> {
    let digit = |&byte: &u8| char::from(byte).to_digit(10);
    let number = |sum: u32, byte| sum.checked_mul(10)?.checked_add(digit(byte)?);
    (!digits.is_empty()).then(|| digits.iter().try_fold(0, number)).flatten()
}

/// The minute of a time `HH:MM`, or why there is none. Hours up to 99 are read: that a minute is
/// above 1,439 is for the library to say. Minutes above 59 are not, or 09:75 would be 10:15.
fn minute(time: &[u8]) -> Result<u16, &'static str> {
    let parts = match *time {
        [h, i, b':', m, n] => decimal(&[h, i]).zip(decimal(&[m, n])),
        _ => None,
    };
    match parts {
        None => Err("it does not begin with a time such as 09:05 and a space"),
        Some((_, 60..)) => Err("the minutes of its time are above 59"),
        Some((hours, minutes)) => Ok((60 * hours + minutes) as u16), // 5,999 at most
    }
}

/// What stands before the first space, and what after it.
fn field(line: &[u8]) -> (&[u8], &[u8]) {
    match line.iter().position(|&byte| byte == b' ') {
        Some(space) => (&line[..space], &line[space + 1..]),
        None => (line, b""),
    }
}

/// The entry of a line, or why it has none.
fn entry(line: &[u8]) -> Result<Entry, &'static str> {
    let (time, rest) = field(line);
    let (number, name) = field(rest);
    let minute = minute(time)?;
    let number = decimal(number).ok_or("after the time there is no number from 0 to 4,294,967,295")?;
    match name {
        b"" => Err("after the number there is no space and name"),
        _ => Ok(Entry::new(number, minute, name)),
    }
}

/// The entries of all lines, which end with a line feed or with a carriage return and a line feed.
fn entries(text: &[u8]) -> Result<Vec<Entry>, BadLine> {
    let lines = text.split(|&byte| byte == b'\n').map(|line| line.strip_suffix(b"\r").unwrap_or(line));
    let filled = lines.enumerate().filter(|(_, line)| !line.is_empty());
    filled.map(|(i, line)| entry(line).map_err(|why| BadLine { number: i + 1, why })).collect()
}

fn print_page(mut input: impl Read, mut output: impl Write) -> Result<(), Box<dyn Error>> {
    let mut text = Vec::new();
    input.read_to_end(&mut text)?;
    let day = Day::of(&entries(&text)?)?;
    output.write_all(day.page().as_bytes())?;
    Ok(output.flush()?)
}

fn main() -> ExitCode {
    match print_page(io::stdin(), io::stdout()) {
        Ok(()) => ExitCode::SUCCESS,
        Err(error) => {
            eprintln!("day: {error}");
            ExitCode::FAILURE
        }
    }
}

#[cfg(test)]
mod tests {
    use super::*;

    /// What is printed, without the spaces after the names; or what is said instead.
    fn printed(input: impl AsRef<[u8]>) -> Result<Vec<String>, String> {
        let mut output = Vec::new();
        let done = print_page(input.as_ref(), &mut output).map_err(|error| error.to_string());
        let page = String::from_utf8(output).unwrap();
        assert!(done.is_ok() || page.is_empty(), "a page beside a fault: {page}");
        assert!(page.split_inclusive('\n').all(|line| line.len() == hirtxonda::DAY_LINE));
        done.map(|()| page.lines().map(|line| line.trim_end().to_string()).collect())
    }

    fn lines(expected: &[&str]) -> Result<Vec<String>, String> {
        Ok(expected.iter().map(|line| line.to_string()).collect())
    }

    #[test]
    fn a_day() {
        let page = lines(&["         7 09:05 OTWAY", "         3 10:30 SMITH"]);
        assert_eq!(printed("10:30 3 SMITH\n09:05 7 OTWAY\n"), page);
        assert_eq!(printed("09:05 7 OTWAY\n10:30 3 SMITH"), page, "no line feed at the end");
        assert_eq!(printed("10:30 3 SMITH\r\n\r\n09:05 7 OTWAY\r\n"), page, "carriage returns");
        assert_eq!(printed("\n\n10:30 3 SMITH\n\n09:05 7 OTWAY\n\n"), page, "empty lines");
    }

    #[test]
    fn no_entry() {
        for input in ["", "\n", "\r\n\n"] {
            assert_eq!(printed(input), lines(&[]));
        }
    }

    #[test]
    fn names() {
        assert_eq!(printed("09:05 7 MARY ANN  OTWAY\n"), lines(&["         7 09:05 MARY ANN  OTWAY"]));
        assert_eq!(printed("09:05 7  OTWAY\n"), lines(&["         7 09:05  OTWAY"]));
        assert_eq!(printed(b"09:05 7 ZO\xcb\0\xff\n"), lines(&["         7 09:05 ZO???"]));
        // One carriage return belongs to the line's end.
        assert_eq!(printed("09:05 7 OTWAY\r\r\n"), lines(&["         7 09:05 OTWAY?"]));
        let name = "A".repeat(32);
        assert_eq!(printed(format!("09:05 7 {name}")), lines(&[&format!("         7 09:05 {name}")]));
    }

    #[test]
    fn times_and_numbers() {
        assert_eq!(printed("00:00 0 A\n23:59 4294967295 B\n").unwrap().len(), 2);
        assert_eq!(printed("00:00 007 A\n"), lines(&["         7 00:00 A"]));
    }

    #[test]
    fn refused() {
        let bad_entry = "refused by number 33: an entry has a minute above 1,439 or a name of more than 32 bytes";
        for line in ["24:00 1 X", "25:00 1 X", "99:59 1 X"] {
            assert_eq!(printed(line), Err(bad_entry.to_string()));
        }
        for size in [33, 65_536 + 5] {
            assert_eq!(printed(format!("09:05 7 {}\n", "A".repeat(size))), Err(bad_entry.to_string()));
        }
        let twice = "refused by number 34: an entry number stands twice";
        assert_eq!(printed("09:05 7 OTWAY\n10:30 7 SMITH\n"), Err(twice.to_string()));
        let many = |count: u32| (0..count).map(|i| format!("09:05 {i} OTWAY\n")).collect::<String>();
        assert_eq!(printed(many(200)).unwrap().len(), 200);
        assert_eq!(printed(many(201)), Err("refused by number 32: the day has more than 200 entries".to_string()));
    }

    #[test]
    fn bad_lines() {
        let time = "it does not begin with a time such as 09:05 and a space";
        let minutes = "the minutes of its time are above 59";
        let number = "after the time there is no number from 0 to 4,294,967,295";
        let name = "after the number there is no space and name";
        let cases = [
            (time, &["OTWAY", "7 09:05 OTWAY", "\t", "09:05\t7\tOTWAY"][..]),
            (time, &[" ", " 09:05 7 X", "9:05 7 X", "009:05 7 X", "09:5 7 X", "09.05 7 X", "0905 7 X"]),
            (time, &["-1:05 7 X", "+9:05 7 X", "09:+5 7 X", "aa:bb 7 X", "09:05:00 7 X"]),
            (minutes, &["09:60 7 X", "09:75 7 X", "09:99 7 X", "24:60 7 X"]),
            (number, &["09:05  7 X", "09:05 +7 X", "09:05 -7 X", "09:05 7. X", "09:05 X 7", "09:05 0x7 X"]),
            (number, &["09:05 4294967296 X", "09:05 99999999999999999999999 X", "09:05", "09:05 ", "09:05 OTWAY"]),
            (name, &["09:05 7", "09:05 7 "]),
        ];
        for (why, each) in cases {
            for line in each {
                assert_eq!(printed(line), Err(format!("line 1: {why}")), "{line:?}");
                // Lines that are left out count too, and the first that can't be read is told.
                let later = format!("\n10:30 3 SMITH\r\n\n{line}\nbad\n");
                assert_eq!(printed(later), Err(format!("line 4: {why}")), "{line:?}");
            }
        }
    }

    /// A line that can't be read is told before what the library would refuse.
    #[test]
    fn bad_line_first() {
        let input = "25:00 1 X\n09:05 1 Y\nno entry\n";
        assert_eq!(entries(input.as_bytes()).unwrap_err().number, 3);
        assert!(printed(input).unwrap_err().starts_with("line 3: "));
    }
}
