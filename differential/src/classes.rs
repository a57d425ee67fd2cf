//! The kinds of text that a run must have drawn, told by what the calls were lent and what the original answered.

use crate::comparison::OriginalReport;
use crate::interface::{entry, Answer};
use crate::texts::Layout;
use oracle::NAME_BUFFER_LENGTH;
use std::fmt::Write;

/// A picture read by both sides alike.
struct Picture<'t> {
    text: &'t [u8],
    /// The lent name buffer's length.
    name_buffer: usize,
    answer: &'t Answer<OriginalReport>,
}

/// The bytes before the first line that begins with `#`, or all.
fn preamble(text: &[u8]) -> &[u8] {
    if text.first() == Some(&b'#') {
        return &[];
    }
    let newline = text.windows(2).position(|pair| pair == b"\n#");
    newline.map_or(text, |at| &text[..=at])
}

impl Picture<'_> {
    fn accepted(&self) -> bool {
        self.answer.result == 0
    }

    /// The length of the width line's symbol.
    fn symbol(&self) -> usize {
        let line = &self.text[preamble(self.text).len()..];
        let blank = |b: &u8| b" \t".contains(b);
        let Some(after) = line.strip_prefix(b"#define") else {
            return 0;
        };
        let start = after.iter().position(|b| !blank(b)).unwrap_or(after.len());
        let symbol = &after[start..];
        symbol.iter().position(|b| blank(b) || *b == b'\n').unwrap_or(symbol.len())
    }
}

/// A class: its name, and which pictures are of it.
type Class = (&'static str, fn(&Picture) -> bool);

const CLASSES: [Class; 7] = [
    ("width above 2,000", |picture| {
        picture.accepted() && picture.answer.report[entry::WIDTH] > 2_000
    }),
    ("text above 60,000 bytes", |picture| picture.accepted() && picture.text.len() > 60_000),
    ("preamble above 4,096 bytes", |picture| {
        picture.accepted() && preamble(picture.text).len() > 4_096
    }),
    ("preamble above 60,000 bytes", |picture| {
        picture.accepted() && preamble(picture.text).len() > 60_000
    }),
    ("symbol of 256 bytes", |picture| {
        picture.accepted()
            && picture.name_buffer == NAME_BUFFER_LENGTH
            && picture.symbol() == NAME_BUFFER_LENGTH
    }),
    ("symbol above 256 bytes in a longer buffer", |picture| {
        picture.accepted() && picture.symbol() > NAME_BUFFER_LENGTH
    }),
    ("symbol above 256 bytes refused", |picture| {
        picture.answer.result == 1
            && picture.name_buffer == NAME_BUFFER_LENGTH
            && picture.symbol() > NAME_BUFFER_LENGTH
    }),
];

/// How many pictures of each class were compared, and in each layout of real files.
#[derive(Clone, Default)]
pub struct Reached {
    classes: [u64; CLASSES.len()],
    layouts: [u64; Layout::REAL.len()],
}

impl Reached {
    pub fn add(&mut self, text: &[u8], name_buffer: usize, answer: &Answer<OriginalReport>) {
        let picture = Picture { text, name_buffer, answer };
        for ((_, is_of), count) in CLASSES.iter().zip(&mut self.classes) {
            *count += u64::from(is_of(&picture));
        }
        if picture.accepted() {
            for (layout, count) in Layout::REAL.iter().zip(&mut self.layouts) {
                let is_of = layout.spacing().is_some_and(|spacing| spacing.is_of(text));
                *count += u64::from(is_of);
            }
        }
    }

    fn all(&self) -> impl Iterator<Item = (String, u64)> + '_ {
        let classes = CLASSES.iter().map(|(name, _)| name.to_string());
        let titles = Layout::REAL.iter().filter_map(|layout| layout.spacing());
        let layouts = titles.map(|spacing| format!("layout {}", spacing.title));
        classes.chain(layouts).zip(self.classes.iter().chain(&self.layouts).copied())
    }

    /// One line: every class and how often it was reached.
    pub fn summary(&self) -> String {
        let mut line = String::new();
        for (name, count) in self.all() {
            let comma = if line.is_empty() { "" } else { ", " };
            write!(line, "{comma}{name}: {count}").unwrap();
        }
        line
    }

    /// The classes that no text was of.
    pub fn unreached(&self) -> Vec<String> {
        self.all().filter(|(_, count)| *count == 0).map(|(name, _)| name).collect()
    }
}

#[cfg(test)]
mod tests {
    use super::*;
    use crate::random::Random;
    use crate::texts::Mask;

    /// The layouts that a text is counted for.
    fn layouts_of(text: &[u8]) -> Vec<Layout> {
        let spaced = |layout: &Layout| layout.spacing().is_some_and(|s| s.is_of(text));
        Layout::REAL.into_iter().filter(spaced).collect()
    }

    #[test]
    fn each_layout_is_told_from_the_others() {
        let mut random = Random::new(1);
        for layout in Layout::REAL {
            let mut mask = Mask::new("d", 40, 5, (0..25).collect());
            mask.layout = layout;
            assert_eq!(layouts_of(&mask.text(&mut random)), [layout]);
            // A single byte, or one that stands otherwise, tells nothing.
            let mut text = Mask { data: vec![1], ..mask.clone() }.text(&mut random);
            assert_eq!(layouts_of(&text), []);
            text = mask.text(&mut random);
            let last = text.iter().rposition(|&b| b == b',').unwrap();
            text.insert(last, b' ');
            assert_eq!(layouts_of(&text), []);
        }
    }

    #[test]
    fn parts_of_a_header_are_measured() {
        let told = |text: &[u8]| {
            let answer = Answer { result: 0, report: [0; 8], hotspot: [0; 2], stray: None };
            let picture = Picture { text, name_buffer: NAME_BUFFER_LENGTH, answer: &answer };
            (preamble(text).len(), picture.symbol())
        };
        assert_eq!(told(b"#define  d_width 9\n"), (0, 7));
        assert_eq!(told(b"/\n\n #\n#define\td_width\n"), (6, 7));
        assert_eq!(told(b"#define abc"), (0, 3));
        assert_eq!(told(b"no define"), (9, 0));
        assert_eq!(told(b""), (0, 0));
    }
}
