//! The lines of a text, taken word by word.

use std::fmt;
use std::iter::Peekable;
use std::vec::IntoIter;

/// What is wrong with a text, and in which line; none where the text ends too soon.
#[derive(Debug, PartialEq)]
pub struct Mistake {
    line: Option<usize>,
    what: String,
}

impl fmt::Display for Mistake {
    fn fmt(&self, f: &mut fmt::Formatter) -> fmt::Result {
        match self.line {
            Some(line) => write!(f, "line {line}: {}", self.what),
            None => write!(f, "the text ends too soon: {}", self.what),
        }
    }
}

/// How many there are, as a record counts them; what is too many for its cell is too many for the library.
pub fn counted(many: usize) -> u16 {
    many.try_into().unwrap_or(u16::MAX)
}

/// The lines that say something, each without its comment.
pub struct Lines<'a> {
    lines: Peekable<IntoIter<Line<'a>>>,
}

/// A line, as far as it is not taken yet.
pub struct Line<'a> {
    number: usize,
    words: Peekable<IntoIter<&'a str>>,
}

impl<'a> Lines<'a> {
    pub fn of(text: &'a str) -> Lines<'a> {
        let numbered = (1..).zip(text.lines());
        let lines = numbered.map(|(number, line)| (number, words_of(line)));
        let saying = lines.filter(|(_, words)| !words.is_empty());
        let lines: Vec<_> = saying
            .map(|(number, words)| Line {
                number,
                words: words.into_iter().peekable(),
            })
            .collect();
        Lines {
            lines: lines.into_iter().peekable(),
        }
    }

    /// The first word of the line that comes next.
    pub fn first_word(&mut self) -> Option<&'a str> {
        self.lines
            .peek_mut()
            .and_then(|line| line.words.peek().copied())
    }

    /// Whether the line that comes next begins with a number.
    pub fn numbered(&mut self) -> bool {
        self.first_word()
            .is_some_and(|word| word.starts_with(|c: char| c.is_ascii_digit()))
    }

    /// The line that comes next, which must begin with this word.
    pub fn headed(&mut self, word: &str) -> Result<Line<'a>, Mistake> {
        if self.first_word() != Some(word) {
            return Err(self.expected(&format!("`{word}`")));
        }
        let mut line = self.taken()?;
        line.word(word)?;
        Ok(line)
    }

    /// The line that comes next, which holds this word and nothing else.
    pub fn heading(&mut self, word: &str) -> Result<(), Mistake> {
        self.headed(word)?.end()
    }

    /// The line that comes next, which holds a word and a number.
    pub fn value(&mut self, word: &str) -> Result<u16, Mistake> {
        let mut line = self.headed(word)?;
        let value = line.number()?;
        line.end()?;
        Ok(value)
    }

    /// The line that comes next, which must begin with its number in a list counted from 0.
    pub fn item(&mut self, number: usize) -> Result<Line<'a>, Mistake> {
        let mut line = self.taken()?;
        let here = line.number()?;
        if usize::from(here) == number {
            return Ok(line);
        }
        Err(line.mistake(format!("number {here} where {number} should stand")))
    }

    /// Nothing may follow.
    pub fn end(mut self) -> Result<(), Mistake> {
        match self.first_word() {
            None => Ok(()),
            Some(_) => Err(self.expected("the end of the text")),
        }
    }

    /// The mistake that something else should stand where the next line begins.
    pub fn expected(&mut self, what: &str) -> Mistake {
        let line = self.lines.peek().map(|line| line.number);
        let found = self
            .first_word()
            .map_or(String::new(), |word| format!("{} where ", quoted(word)));
        let verb = if found.is_empty() {
            "is missing"
        } else {
            "should stand"
        };
        Mistake {
            line,
            what: format!("{found}{what} {verb}"),
        }
    }

    fn taken(&mut self) -> Result<Line<'a>, Mistake> {
        match self.lines.next() {
            Some(line) => Ok(line),
            None => Err(self.expected("a line")),
        }
    }
}

/// A word as a message can hold it.
fn quoted(word: &str) -> String {
    const MOST: usize = 40;
    let printed = word
        .chars()
        .map(|letter| if letter.is_control() { '?' } else { letter });
    let cut = if word.chars().count() > MOST {
        ".."
    } else {
        ""
    };
    format!("`{}{cut}`", printed.take(MOST).collect::<String>())
}

/// The words of a line in front of its comment.
fn words_of(line: &str) -> Vec<&str> {
    let said = line.split('#').next().unwrap_or_default();
    let words = said.split(|c: char| c.is_whitespace() || c == ',');
    words.filter(|word| !word.is_empty()).collect()
}

impl Line<'_> {
    /// Takes this word.
    pub fn word(&mut self, word: &str) -> Result<(), Mistake> {
        match self.words.next() {
            Some(found) if found == word => Ok(()),
            found => Err(self.instead(found, &format!("`{word}`"))),
        }
    }

    /// Takes a number, as far as a record's cell holds it.
    pub fn number(&mut self) -> Result<u16, Mistake> {
        let found = self.words.next();
        let digits = found.unwrap_or_default();
        if digits.is_empty() || !digits.bytes().all(|byte| byte.is_ascii_digit()) {
            return Err(self.instead(found, "a number"));
        }
        let most = u16::MAX;
        digits.parse().map_err(|_| {
            let digits = quoted(digits);
            self.mistake(format!(
                "{digits} is more than {most}, the most of any number"
            ))
        })
    }

    /// Takes a word and a number.
    pub fn value(&mut self, word: &str) -> Result<u16, Mistake> {
        self.word(word)?;
        self.number()
    }

    /// Takes numbers to the end of the line.
    pub fn numbers(&mut self) -> Result<Vec<u16>, Mistake> {
        let mut numbers = Vec::new();
        while !self.ended() {
            numbers.push(self.number()?);
        }
        Ok(numbers)
    }

    pub fn ended(&mut self) -> bool {
        self.words.peek().is_none()
    }

    /// Nothing may follow in the line.
    pub fn end(mut self) -> Result<(), Mistake> {
        match self.words.next() {
            None => Ok(()),
            found => Err(self.instead(found, "the end of the line")),
        }
    }

    pub fn mistake(&self, what: String) -> Mistake {
        Mistake {
            line: Some(self.number),
            what,
        }
    }

    fn instead(&self, found: Option<&str>, expected: &str) -> Mistake {
        let found = found.map_or("the line ends".to_string(), quoted);
        self.mistake(format!("{found} where {expected} should stand"))
    }
}
