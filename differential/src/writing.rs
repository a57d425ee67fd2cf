//! Masks to be written, with what must be answered and the text that must be written: told here alone, by document 02's
//! numbers and layout.

use crate::random::Random;
use crate::texts::TELLING;

/// A mask as C lends it.
#[derive(Clone, Debug, PartialEq, Eq)]
pub struct Picture {
    pub name: Vec<u8>,
    pub width: u32,
    pub height: u32,
    /// With 0 there is no hotspot, with any other number there is.
    pub has_hotspot: u32,
    pub hotspot: [i32; 2],
    pub cells: Vec<u8>,
}

/// The longest name that can be written.
pub const LONGEST_NAME: usize = 250;

/// What no name may hold.
const BREAKS: &[u8] = b" \t\n";

/// Data bytes to a line.
const LINE: usize = 12;

/// Room that is enough for every text of these sides, as `xbm.h` says.
pub fn room(width: u32, height: u32) -> u64 {
    1539 + 8 * u64::from(width).div_ceil(8) * u64::from(height)
}

impl Picture {
    /// A mask with this ink: rows of cells from top to bottom.
    pub fn new(name: &[u8], width: u32, height: u32, ink: impl FnMut(usize) -> bool) -> Picture {
        let cells = width as usize * height as usize;
        Picture {
            name: name.to_vec(),
            width,
            height,
            has_hotspot: 0,
            hotspot: [3, -4],
            cells: (0..cells).map(ink).map(|ink| if ink { 0 } else { 255 }).collect(),
        }
    }

    pub fn spot(&self) -> Option<(i32, i32)> {
        let [x, y] = self.hotspot;
        (self.has_hotspot != 0).then_some((x, y))
    }

    /// The first thing that is wrong with it.
    pub fn fault(&self) -> Option<u32> {
        let size = u64::from(self.width) * u64::from(self.height);
        if self.name.len() > LONGEST_NAME || self.name.iter().any(|b| BREAKS.contains(b)) {
            Some(51)
        } else if self.width == 0 || self.height == 0 {
            Some(52)
        } else if self.cells.len() as u64 != size {
            Some(53)
        } else if self.cells.iter().any(|cell| ![0, 255].contains(cell)) {
            Some(54)
        } else {
            None
        }
    }

    /// Its data bytes: the first cell is the lowest bit.
    pub fn data(&self) -> Vec<u8> {
        let rows = self.cells.chunks(self.width as usize);
        let ink = |byte: u8, &cell: &u8| 2 * byte + u8::from(cell == 0);
        rows.flat_map(|row| row.chunks(8)).map(|unit| unit.iter().rev().fold(0, ink)).collect()
    }

    /// The text of a mask with which nothing is wrong.
    pub fn text(&self) -> Vec<u8> {
        let mut out = Vec::new();
        let mut define = |ending: &str, number: i64| {
            out.extend_from_slice(b"#define ");
            out.extend_from_slice(&self.name);
            out.extend(format!("{ending} {number}\n").bytes());
        };
        define("_width", self.width.into());
        define("_height", self.height.into());
        if let Some((x, y)) = self.spot() {
            define("_x_hot", x.into());
            define("_y_hot", y.into());
        }
        out.extend_from_slice(b"static unsigned char ");
        out.extend_from_slice(&self.name);
        out.extend_from_slice(b"_bits[] = {");
        for (i, byte) in self.data().into_iter().enumerate() {
            let before = match i % LINE {
                0 if i == 0 => "\n   ",
                0 => ",\n   ",
                _ => ", ",
            };
            out.extend(format!("{before}0x{byte:02x}").bytes());
        }
        out.extend_from_slice(b"};\n");
        out
    }

    /// A drawn mask with which nothing is wrong.
    pub fn random(random: &mut Random) -> Picture {
        let side = |random: &mut Random| match random.below(32) {
            0 => random.within(65, 400),
            1..=4 => random.within(1, 64),
            _ => [1, 2, 3, 7, 8, 9, 12, 13, 15, 16, 17, 24, 25][random.below(13)],
        };
        let (width, height) = (side(random) as u32, side(random) as u32);
        let length = match random.below(8) {
            0 => LONGEST_NAME,
            1 => random.within(0, LONGEST_NAME),
            _ => random.within(0, 9),
        };
        let kind = random.below(3);
        let letter = |random: &mut Random| loop {
            let byte = match kind {
                0 => random.byte(),
                1 => random.pick_byte(TELLING),
                _ => random.pick_byte(b"_widthegxo0"),
            };
            if !BREAKS.contains(&byte) {
                return byte;
            }
        };
        let name: Vec<u8> = (0..length).map(|_| letter(random)).collect();
        let many = random.pick(&[&[1, 2, 9], &[2; 3]])[random.below(3)];
        let mut picture = Picture::new(&name, width, height, |_| random.once_in(many));
        picture.has_hotspot = match random.below(8) {
            0..=2 => 0,
            3 => random.word() as u32,
            _ => 1,
        };
        picture.hotspot = [(); 2].map(|()| coordinate(random));
        picture
    }

    /// Changes it so that something, or more than one thing, is wrong.
    pub fn spoil(&mut self, random: &mut Random) {
        for _ in 0..random.within(1, 3) {
            match random.below(9) {
                0 => self.name.resize(LONGEST_NAME + random.within(1, 60), b'n'),
                1 => self.name.insert(random.below(self.name.len() + 1), random.pick_byte(BREAKS)),
                2 => self.width = 0,
                3 => self.height = 0,
                4 => self.cells.push(255),
                5 => self.cells.truncate(random.below(self.cells.len() + 1)),
                // The same product in 32 bits, or nearly.
                6 => self.width ^= 1 << random.below(32),
                _ if !self.cells.is_empty() => {
                    let at = random.below(self.cells.len());
                    self.cells[at] = [1, 127, 128, 254, random.byte()][random.below(5)];
                }
                _ => self.cells.push(7),
            }
        }
    }
}

fn coordinate(random: &mut Random) -> i32 {
    match random.below(8) {
        0 => i32::MIN,
        1 => i32::MAX,
        2 => random.word() as i32,
        _ => random.within(0, 40) as i32 - 20,
    }
}

#[cfg(test)]
mod tests {
    use super::*;

    #[test]
    fn texts_are_as_they_are_laid_out() {
        let mut picture = Picture::new(b"d", 9, 1, |cell| cell == 0);
        let plain = "#define d_width 9\n#define d_height 1\n\
                     static unsigned char d_bits[] = {\n   0x01, 0x00};\n";
        assert_eq!(picture.text(), plain.as_bytes());
        picture.has_hotspot = 7;
        let spotted =
            "#define d_width 9\n#define d_height 1\n#define d_x_hot 3\n#define d_y_hot -4\n\
                       static unsigned char d_bits[] = {\n   0x01, 0x00};\n";
        assert_eq!(picture.text(), spotted.as_bytes());
        let tall = Picture::new(b"", 3, 13, |cell| cell > 2);
        let text = "#define _width 3\n#define _height 13\nstatic unsigned char _bits[] = {\n   \
                    0x00, 0x07, 0x07, 0x07, 0x07, 0x07, 0x07, 0x07, 0x07, 0x07, 0x07, 0x07,\n   0x07};\n";
        assert_eq!(tall.text(), text.as_bytes());
    }

    #[test]
    fn faults_come_in_their_order() {
        let sound = Picture::new(b"d", 9, 1, |_| true);
        assert_eq!(sound.fault(), None);
        let grey = Picture { cells: vec![7; 9], ..sound.clone() };
        assert_eq!(grey.fault(), Some(54));
        let many = Picture { width: 8, ..grey };
        assert_eq!(many.fault(), Some(53));
        let flat = Picture { height: 0, ..many };
        assert_eq!(flat.fault(), Some(52));
        for name in [&b"a b"[..], b"\ta", b"a\n", &[b'n'; 251]] {
            assert_eq!(Picture { name: name.to_vec(), ..flat.clone() }.fault(), Some(51));
        }
        assert_eq!(Picture { name: vec![b'\r'; 250], ..sound }.fault(), None);
    }
}
