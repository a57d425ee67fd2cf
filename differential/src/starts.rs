//! The starts of lines that our calls tell and leave in decoders, held to the text alone: the original has none.

use crate::interface::{entry, Answer, Call, StreamDecoder, TextLocation};

/// From where the bytes of a text were taken, and where that line started.
#[derive(Clone, Copy)]
pub struct Taken {
    from: u64,
    start: u64,
}

impl Taken {
    /// All from the text's first byte: by a call that reads the header, and with a decoder that a header gave.
    pub const FROM_THE_FIRST: Taken = Taken { from: 0, start: 0 };

    /// Those after the place of a lent decoder, whose start is taken as it is.
    pub fn after(lent: &StreamDecoder) -> Taken {
        Taken { from: lent.location.byte, start: lent.location.start }
    }

    /// Where the line of the place after so many bytes starts: past the last newline taken, if one was.
    fn start_at(self, text: &[u8], byte: u64) -> Option<u64> {
        let range = usize::try_from(self.from).ok()?..usize::try_from(byte).ok()?;
        let newline = text.get(range)?.iter().rposition(|&b| b == b'\n');
        Some(newline.map_or(self.start, |at| self.from + at as u64 + 1))
    }
}

/// What is wrong with the starts of a call that was not lent a foreign decoder, or with the entry that is kept free.
/// `later` is the decoder as the call left it.
pub fn wrong(
    call: Call,
    text: &[u8],
    taken: Taken,
    answer: &Answer,
    later: Option<&StreamDecoder>,
) -> Option<String> {
    let told = if tells_place(call, answer.result) {
        wrong_at("the report", text, taken, answer.location())
    } else {
        wrong_without_place(answer)
    };
    let left = later.and_then(|later| wrong_at("the decoder", text, taken, later.location));
    told.or(left).or(wrong_reserved(answer))
}

/// The same after a foreign decoder was lent: it stays as it is, and no place is told.
pub fn wrong_foreign(
    answer: &Answer,
    lent: &StreamDecoder,
    later: &StreamDecoder,
) -> Option<String> {
    let (start, kept) = (later.location.start, lent.location.start);
    let left =
        (start != kept).then(|| format!("the decoder has start {start}, but {kept} was lent"));
    wrong_without_place(answer).or(left).or(wrong_reserved(answer))
}

/// Whether a call with this result tells a place.
fn tells_place(call: Call, result: u32) -> bool {
    match result {
        0 => call != Call::ReadImage,
        _ => result <= 8,
    }
}

/// A start is the count at which the line starts, and also the byte less the column.
fn wrong_at(whose: &str, text: &[u8], taken: Taken, place: TextLocation) -> Option<String> {
    let TextLocation { byte, column, start, .. } = place;
    let Some(counted) = taken.start_at(text, byte) else {
        return Some(format!("{whose} has byte {byte}, before the lent place or past the text"));
    };
    if start != counted {
        return Some(format!("{whose} has start {start}, but the line starts at {counted}"));
    }
    let agrees = byte.checked_sub(column) == Some(start);
    (!agrees).then(|| format!("{whose} has start {start}, not byte {byte} less column {column}"))
}

fn wrong_without_place(answer: &Answer) -> Option<String> {
    let start = answer.report[entry::START];
    (start != 0).then(|| format!("the report has start {start}, but no place is to be told"))
}

fn wrong_reserved(answer: &Answer) -> Option<String> {
    let reserved = answer.report[entry::RESERVED];
    (reserved != 0).then(|| format!("the report's entry 9 is {reserved}, not 0"))
}

#[cfg(test)]
mod tests {
    use super::*;
    use crate::interface::{ENTRIES, NO_HOTSPOT_ENTRY};

    const TEXT: &[u8] = b"ab\ncd\n\nef";

    fn lent(byte: u64, column: u64) -> StreamDecoder {
        let location = TextLocation::new(byte, 1, column);
        StreamDecoder { width: 9, height: 1, current_position: 0, location }
    }

    fn told(result: u32, location: TextLocation) -> Answer {
        let mut report = [0; ENTRIES];
        let TextLocation { byte, line, column, start } = location;
        report[..3].copy_from_slice(&[byte, line, column]);
        report[entry::START] = start;
        Answer { result, report, hotspot: NO_HOTSPOT_ENTRY, stray: None }
    }

    #[test]
    fn line_starts_past_the_last_newline_taken() {
        let starts = [0, 0, 0, 3, 3, 3, 6, 7, 7, 7];
        for (byte, start) in starts.into_iter().enumerate() {
            assert_eq!(Taken::FROM_THE_FIRST.start_at(TEXT, byte as u64), Some(start), "at {byte}");
        }
        // What a decoder has stays until a newline is taken.
        for (byte, start) in [(4, 1), (5, 1), (6, 6), (7, 7), (9, 7)] {
            assert_eq!(Taken::after(&lent(4, 3)).start_at(TEXT, byte), Some(start), "at {byte}");
        }
        for byte in [0, 3, 10, u64::MAX] {
            assert_eq!(Taken::after(&lent(4, 3)).start_at(TEXT, byte), None, "at {byte}");
        }
    }

    /// What is wrong after one call on the whole text, which leaves a decoder where that is lent one.
    fn wrong_after(call: Call, result: u32, location: TextLocation) -> Option<String> {
        let later = StreamDecoder { location, ..lent(0, 0) };
        let later = (call == Call::NextByte).then_some(&later);
        wrong(call, TEXT, Taken::FROM_THE_FIRST, &told(result, location), later)
    }

    #[test]
    fn start_off_its_line_is_wrong() {
        let right = TextLocation::new(9, 4, 2);
        for (call, result) in [
            (Call::ReadHeader, 0),
            (Call::ReadHeader, 1),
            (Call::ReadImage, 8),
            (Call::NextByte, 0),
        ] {
            assert_eq!(wrong_after(call, result, right), None);
            for start in [0, 6, 8, 9, u64::MAX] {
                let wrong = wrong_after(call, result, TextLocation { start, ..right });
                assert_eq!(
                    wrong,
                    Some(format!("the report has start {start}, but the line starts at 7"))
                );
            }
            let wrong = wrong_after(call, result, TextLocation { column: 3, ..right });
            assert_eq!(wrong.unwrap(), "the report has start 7, not byte 9 less column 3");
            let wrong = wrong_after(call, result, TextLocation { byte: 10, ..right });
            assert_eq!(
                wrong.unwrap(),
                "the report has byte 10, before the lent place or past the text"
            );
        }
    }

    #[test]
    fn start_in_the_decoder_is_held_too() {
        let answer = told(0, TextLocation::new(9, 4, 2));
        let later = |start| {
            let location = TextLocation { start, ..TextLocation::new(9, 4, 2) };
            StreamDecoder { location, ..lent(0, 0) }
        };
        let taken = Taken::after(&lent(4, 3));
        let wrong = |start| wrong(Call::NextByte, TEXT, taken, &answer, Some(&later(start)));
        assert_eq!(wrong(7), None);
        assert_eq!(wrong(1).unwrap(), "the decoder has start 1, but the line starts at 7");
    }

    #[test]
    fn no_start_is_told_without_a_place() {
        for (call, result) in [
            (Call::ReadImage, 0),
            (Call::ReadImage, 31),
            (Call::ReadHeader, 111),
            (Call::ReadImage, 144),
            (Call::ReadHeader, 21),
        ] {
            let start = |start| TextLocation { byte: 0, line: 0, column: 0, start };
            assert_eq!(wrong_after(call, result, start(0)), None);
            let wrong = wrong_after(call, result, start(7)).unwrap();
            assert_eq!(wrong, "the report has start 7, but no place is to be told");
        }
    }

    #[test]
    fn last_entry_is_0_in_every_report() {
        let mut answer = told(0, TextLocation::START);
        answer.report[entry::RESERVED] = 5;
        let said = "the report's entry 9 is 5, not 0";
        let wrong = wrong(Call::ReadHeader, TEXT, Taken::FROM_THE_FIRST, &answer, None);
        assert_eq!(wrong.unwrap(), said);
        assert_eq!(wrong_foreign(&answer, &lent(0, 0), &lent(0, 0)).unwrap(), said);
    }

    #[test]
    fn foreign_decoder_keeps_its_start() {
        let nothing = TextLocation { byte: 0, line: 0, column: 0, start: 0 };
        let foreign = |start| {
            let location = TextLocation { start, ..TextLocation::new(99, 1, 0) };
            StreamDecoder { location, ..lent(0, 0) }
        };
        let answer = told(9, nothing);
        assert_eq!(wrong_foreign(&answer, &foreign(5), &foreign(5)), None);
        let wrong = wrong_foreign(&answer, &foreign(5), &foreign(99));
        assert_eq!(wrong.unwrap(), "the decoder has start 99, but 5 was lent");
        let answer = told(9, TextLocation { start: 5, ..nothing });
        let wrong = wrong_foreign(&answer, &foreign(5), &foreign(5));
        assert_eq!(wrong.unwrap(), "the report has start 5, but no place is to be told");
    }
}
