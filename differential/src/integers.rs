//! The four faults of an integer, which our numbers tell apart and the original's do not: our numbers beside its own,
//! and which fault the token in a text has.

/// The faults, in the order in which they are tested.
pub const NOTHING_THERE: u32 = 1;
pub const LEADING_ZERO: u32 = 2;
pub const NO_DIGIT: u32 = 3;
pub const OUT_OF_RANGE: u32 = 4;

/// The original's number for a width that is no integer. Those for height, x and y follow it.
const WIDTH: u32 = 11;

/// The lines that hold an integer: width, height, x, y. The last two may have a sign.
pub const LINES: usize = 4;

/// The longest token that is read.
pub const LONGEST: usize = 11;

/// No number of the original's.
const NO_NUMBER: u32 = u32::MAX;

/// The original's number for one of ours. Its 11 to 14 are none of ours.
pub fn of_original(ours: u32) -> u32 {
    match ours {
        111..=114 => 11,
        121..=124 => 12,
        131..=134 => 13,
        141..=144 => 14,
        11..=14 => NO_NUMBER,
        _ => ours,
    }
}

/// Which fault a token has, none if it is an integer in range. In a signed one a first `-` is the sign.
pub fn fault(token: &[u8], signed: bool) -> Option<u32> {
    let digits = match token {
        [b'-', after @ ..] if signed => after,
        _ => token,
    };
    if digits.is_empty() {
        return Some(NOTHING_THERE);
    }
    if digits[0] == b'0' && digits.len() > 1 {
        return Some(LEADING_ZERO);
    }
    if !digits.iter().all(u8::is_ascii_digit) {
        return Some(NO_DIGIT);
    }
    let text = str::from_utf8(token).expect("digits after at most a sign");
    let fits = if signed { text.parse::<i32>().is_ok() } else { text.parse::<u32>().is_ok() };
    (!fits).then_some(OUT_OF_RANGE)
}

/// Whether the line with this index may have a sign.
pub fn signed(line: usize) -> bool {
    line >= 2
}

/// Our number for a token in the line with this index, none if it is an integer in range.
pub fn number(token: &[u8], line: usize) -> Option<u32> {
    fault(token, signed(line)).map(|fault| 10 * (WIDTH + line as u32) + fault)
}

/// The index of the line whose integer the original refuses with this number.
pub fn line(original: u32) -> Option<usize> {
    let line = original.checked_sub(WIDTH)? as usize;
    (line < LINES).then_some(line)
}

/// The token of the line with this index, in a text that is sound up to that line's end: its third word, or nothing.
pub fn token(text: &[u8], line: usize) -> Option<&[u8]> {
    let lines = text.split(|&b| b == b'\n');
    let line = lines.skip_while(|line| !line.starts_with(b"#")).nth(line)?;
    let mut words = line.split(|b| b" \t".contains(b)).filter(|word| !word.is_empty());
    Some(words.nth(2).unwrap_or_default())
}

/// What is wrong with our number where the original refuses an integer: it must tell the fault that the token has.
pub fn wrong(text: &[u8], original: u32, ours: u32) -> Option<String> {
    let line = line(original)?;
    let Some(token) = token(text, line) else {
        return Some(format!("the number is {ours}, but the text has no line for {original}"));
    };
    let right = number(token, line);
    let shown = token.escape_ascii();
    match right {
        Some(right) if right == ours => None,
        Some(right) => Some(format!("the number is {ours}, but \"{shown}\" gets {right}")),
        None => Some(format!("the number is {ours}, but \"{shown}\" has no fault")),
    }
}

#[cfg(test)]
mod tests {
    use super::*;

    #[test]
    fn faults_are_tested_in_their_order() {
        for (token, side, hotspot) in [
            ("", Some(1), Some(1)),
            ("-", Some(3), Some(1)),
            ("0", None, None),
            ("-0", Some(3), None),
            ("00", Some(2), Some(2)),
            ("014", Some(2), Some(2)),
            ("014z", Some(2), Some(2)),
            ("0z", Some(2), Some(2)),
            ("0-", Some(2), Some(2)),
            ("0\0", Some(2), Some(2)),
            ("09999999999", Some(2), Some(2)),
            ("-00", Some(3), Some(2)),
            ("-014", Some(3), Some(2)),
            ("-0z", Some(3), Some(2)),
            ("+1", Some(3), Some(3)),
            ("1z", Some(3), Some(3)),
            ("9\r", Some(3), Some(3)),
            ("--1", Some(3), Some(3)),
            ("--", Some(3), Some(3)),
            ("-z", Some(3), Some(3)),
            ("9999999999z", Some(3), Some(3)),
            ("4294967296z", Some(3), Some(3)),
            ("-999999999z", Some(3), Some(3)),
            ("4294967295", None, Some(4)),
            ("4294967296", Some(4), Some(4)),
            ("99999999999", Some(4), Some(4)),
            ("2147483647", None, None),
            ("2147483648", None, Some(4)),
            ("-2147483648", Some(3), None),
            ("-2147483649", Some(3), Some(4)),
            ("-4294967296", Some(3), Some(4)),
            ("-9999999999", Some(3), Some(4)),
            ("9", None, None),
            ("-1", Some(3), None),
        ] {
            assert_eq!(fault(token.as_bytes(), false), side, "{token:?} as a side");
            assert_eq!(fault(token.as_bytes(), true), hotspot, "{token:?} as a hotspot");
        }
        assert_eq!(fault(b"\xff", false), Some(NO_DIGIT));
        assert_eq!(fault(b"1\xff", true), Some(NO_DIGIT));
    }

    #[test]
    fn numbers_stand_in_the_ten_of_their_line() {
        for (line, tens) in [110, 120, 130, 140].into_iter().enumerate() {
            for (token, fault) in [("", 1), ("01", 2), ("z", 3), ("99999999999", 4)] {
                assert_eq!(number(token.as_bytes(), line), Some(tens + fault));
            }
            assert_eq!(number(b"7", line), None);
        }
        assert_eq!([0, 1, 2, 3].map(|line| number(b"-", line)), [113, 123, 131, 141].map(Some));
    }

    #[test]
    fn only_the_sixteen_are_others_of_the_original() {
        for ours in (0..=2000).chain([u32::MAX - 1]) {
            let (tens, last) = (ours / 10, ours % 10);
            let original = if (11..=14).contains(&ours) {
                NO_NUMBER
            } else if (11..=14).contains(&tens) && (1..=4).contains(&last) {
                tens
            } else {
                ours
            };
            assert_eq!(of_original(ours), original, "{ours}");
        }
        assert_eq!([110, 115, 120, 145].map(of_original), [110, 115, 120, 145]);
        for number in 0..=31 {
            let line = [11, 12, 13, 14].iter().position(|&n| n == number);
            assert_eq!(super::line(number), line, "{number}");
        }
    }

    #[test]
    fn token_is_the_third_word_of_its_line() {
        let text = b"/* 1 2 3 */\n\n #\n#define  d_width \t014z\t \n#define d_height \n#define d_x_hot\t-\n\
            #define d_y_hot 5 \nstatic char";
        let tokens: [&[u8]; 4] = [b"014z", b"", b"-", b"5"];
        for (line, right) in tokens.into_iter().enumerate() {
            assert_eq!(token(text, line), Some(right));
        }
        assert_eq!(token(b"#define #_width \xff\0\r\n", 0), Some(b"\xff\0\r".as_slice()));
        assert_eq!(token(b"#define d_width 9", 1), None);
        assert_eq!(token(b"no define\n", 0), None);
        assert_eq!(token(b"", 0), None);
    }

    #[test]
    fn number_must_be_that_of_the_token() {
        let text = b"#define d_width 9\n#define d_height 014z\n";
        assert_eq!(wrong(text, 12, 122), None);
        for ours in [0, 2, 12, 22, 112, 121, 123, 124, 125, 132, 142] {
            let said = format!("the number is {ours}, but \"014z\" gets 122");
            assert_eq!(wrong(text, 12, ours), Some(said));
        }
        let said = "the number is 114, but \"9\" has no fault";
        assert_eq!(wrong(text, 11, 114).unwrap(), said);
        let said = "the number is 141, but the text has no line for 14";
        assert_eq!(wrong(b"", 14, 141).unwrap(), said);
        // Where the original refuses no integer, our number is held to its own.
        for original in [0, 1, 8, 9, 21, 22, 31] {
            assert_eq!(wrong(text, original, 111), None);
        }
    }

    /// A token has a fault where the original takes it for no integer, and nowhere else.
    #[cfg(has_original)]
    #[test]
    fn faults_are_those_that_the_original_refuses() {
        let mut tokens = crate::trials::words(b"0129-+z\r\0\xff", 4);
        tokens.extend(crate::texts::TOKENS.iter().map(|token| token.as_bytes().to_vec()));
        for token in tokens {
            let shown = token.escape_ascii();
            assert_eq!(
                fault(&token, false).is_none(),
                oracle::parse_u32(&token).is_some(),
                "{shown}"
            );
            assert_eq!(
                fault(&token, true).is_none(),
                oracle::parse_i32(&token).is_some(),
                "{shown}"
            );
        }
    }
}
