//! The writing of SVG elements. Callers say what and where, in px; the style sheet says how each class looks.

use super::style::style;

/// From line to line, as a share of the letters' size.
const LEADING: f64 = 1.4;

/// The class and the size of a text.
#[derive(Clone, Copy)]
pub struct Face(pub &'static str, pub f64);

impl Face {
    /// About how wide the words are, rather too wide.
    pub fn wide(self, words: &str) -> f64 {
        words.chars().map(letter_wide).sum::<f64>() * self.1
    }

    pub fn leading(self) -> f64 {
        LEADING * self.1
    }

    /// The words in lines within the limit. A word that is wider alone is cut.
    pub fn wrapped(self, words: &str, limit: f64) -> Vec<String> {
        let mut lines: Vec<String> = Vec::new();
        for word in words.split_whitespace() {
            match lines.last_mut() {
                Some(line) if self.wide(line) + self.wide(" ") + self.wide(word) <= limit => {
                    *line += " ";
                    *line += word;
                }
                _ => lines.extend(self.cut(word, limit)),
            }
        }
        lines
    }

    fn cut(self, word: &str, limit: f64) -> Vec<String> {
        let mut pieces = vec![String::new()];
        for letter in word.chars().map(String::from) {
            match pieces.last_mut() {
                Some(piece) if self.wide(piece) + self.wide(&letter) <= limit => *piece += &letter,
                _ => pieces.push(letter),
            }
        }
        pieces
    }
}

/// A letter's width as a share of its size, as usual sans-serif fonts have it.
fn letter_wide(letter: char) -> f64 {
    match letter {
        _ if " !'(),-./:;I[]fijlrt|·".contains(letter) => 0.42,
        'A'..='Z' | 'm' | 'w' | '@' | '%' => 0.85,
        '\0'..'\u{250}' => 0.66,
        _ => 1.1,
    }
}

/// Text as XML can hold it. What it cannot hold is replaced.
pub fn escaped(words: &str) -> String {
    let mut safe = String::new();
    for letter in words.chars() {
        match letter {
            '&' => safe += "&amp;",
            '<' => safe += "&lt;",
            '>' => safe += "&gt;",
            '"' => safe += "&quot;",
            '\t' | '\n' | '\r' => safe.push(' '),
            '\0'..' ' | '\u{fffe}' | '\u{ffff}' => safe.push(char::REPLACEMENT_CHARACTER),
            _ => safe.push(letter),
        }
    }
    safe
}

/// What has been written so far.
#[derive(Default)]
pub struct Page {
    body: String,
}

impl Page {
    fn put(&mut self, element: &str) {
        self.body += element;
        self.body.push('\n');
    }

    pub fn rect(&mut self, class: &str, [x, y, wide, high]: [f64; 4]) {
        self.put(&format!(
            r#"<rect class="{class}" x="{x:.1}" y="{y:.1}" width="{wide:.1}" height="{high:.1}"/>"#
        ));
    }

    pub fn path(&mut self, class: &str, course: &str) {
        self.put(&format!(r#"<path class="{class}" d="{course}"/>"#));
    }

    pub fn line(&mut self, class: &str, [x1, y1, x2, y2]: [f64; 4]) {
        self.path(class, &format!("M{x1:.1} {y1:.1}L{x2:.1} {y2:.1}"));
    }

    pub fn text(&mut self, Face(class, size): Face, x: f64, y: f64, words: &str) {
        let words = escaped(words);
        self.put(&format!(
            r#"<text class="{class}" font-size="{size}" x="{x:.1}" y="{y:.1}">{words}</text>"#
        ));
    }

    /// Lines below one another; gives the y below them.
    pub fn lines(&mut self, face: Face, x: f64, mut y: f64, lines: &[String]) -> f64 {
        for line in lines {
            self.text(face, x, y + face.1, line);
            y += face.leading();
        }
        y
    }

    /// Elements with a hover tip.
    pub fn tipped(&mut self, tip: &str, draw: impl FnOnce(&mut Page)) {
        self.put(&format!("<g><title>{}</title>", escaped(tip)));
        draw(self);
        self.put("</g>");
    }

    /// The whole document, on white paper.
    pub fn document(self, title: &str, wide: f64, high: f64) -> String {
        let [title, style, body] = [escaped(title), style(), self.body];
        let size = format!(r#"width="{wide:.0}" height="{high:.0}""#);
        format!(
            r#"<svg xmlns="http://www.w3.org/2000/svg" role="img" {size} viewBox="0 0 {wide:.0} {high:.0}">
<title>{title}</title>
{style}
<rect class="paper" {size}/>
{body}</svg>
"#
        )
    }
}
