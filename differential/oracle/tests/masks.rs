//! Document 01's "Masks on the table", run on the original: what the paper says is what it does.

#![cfg_attr(not(has_original), allow(dead_code, unused_imports))]

use oracle::{Header, Place, Refusal};

/// Mask M of document 01.
const M: &str = "\
#define d_width 9
#define d_height 1
static char d_bits[] = {0x01,0x00};
";

/// What every cell holds before a call.
const LENT: u8 = 77;

/// M's header values.
const M_HEADER: Header = Header { width: 9, height: 1, hotspot: None };

/// M's cells: 0 and then eight of 255.
const M_CELLS: [u8; 9] = [0, 255, 255, 255, 255, 255, 255, 255, 255];

/// The original was not found when a test needs it: then the test is listed as ignored, with this reason.
macro_rules! with_original {
    ($(fn $name:ident() $body:block)*) => {$(
        #[cfg(has_original)]
        #[test]
        fn $name() $body

        #[cfg(not(has_original))]
        #[test]
        #[ignore = "skipped: the original xbm.rs was not found, set XBM_RS to its path"]
        fn $name() {}
    )*};
}

/// M's first line with another width token.
fn with_width(token: &str) -> String {
    M.replacen("d_width 9", &format!("d_width {token}"), 1)
}

/// M with hotspot lines.
fn with_hotspot(x: &str, y: &str) -> String {
    let lines = format!("#define d_x_hot {x}\n#define d_y_hot {y}\nstatic");
    M.replacen("static", &lines, 1)
}

/// M with a symbol of so many bytes.
fn with_symbol(length: usize) -> String {
    let name = "n".repeat(length - "_width".len());
    M.replace("d_", &format!("{name}_"))
}

#[cfg(has_original)]
fn read(text: &str, cells: usize) -> (Result<Header, Refusal>, Vec<u8>) {
    let mut pixels = vec![LENT; cells];
    let answer = oracle::read_image(text.as_bytes(), &mut pixels);
    (answer, pixels)
}

#[cfg(has_original)]
#[track_caller]
fn accepts(text: &str, cells: usize, header: Header, picture: &[u8]) {
    let (answer, pixels) = read(text, cells);
    assert_eq!(answer, Ok(header), "{text:?}");
    assert_eq!(pixels, picture, "{text:?}");
}

/// Refused, with so many cells written as M has them from the start and the rest as lent.
#[cfg(has_original)]
#[track_caller]
fn refuses(text: &str, cells: usize, number: u32, place: Option<(u64, u64, u64)>, written: usize) {
    let (answer, pixels) = read(text, cells);
    let place = place.map(|(byte, line, column)| Place { byte, line, column });
    assert_eq!(answer, Err(Refusal { number, place }), "{text:?}");
    assert_eq!(pixels[..written], M_CELLS[..written], "{text:?}");
    assert!(pixels[written..].iter().all(|&c| c == LENT), "{text:?}");
}

/// Refused without a word on the place told: the number, and that one is told.
#[cfg(has_original)]
#[track_caller]
fn refuses_somewhere(text: &str, number: u32) {
    let refusal = read(text, 9).0.unwrap_err();
    assert_eq!(refusal.number, number, "{text:?}");
    assert!(refusal.place.is_some(), "{text:?}");
}

with_original! {
    fn m_and_its_cuts() {
        assert_eq!(M.len(), 73);
        accepts(M, 9, M_HEADER, &M_CELLS);
        assert_eq!(M_CELLS.iter().filter(|&&c| c == 0).count(), 1);
        accepts(&M[..72], 9, M_HEADER, &M_CELLS);
        refuses(&M[..71], 9, 7, Some((71, 3, 34)), 9);
        refuses(&M[..65], 9, 6, Some((65, 3, 28)), 8);
        refuses(&M[..64], 9, 6, Some((64, 3, 27)), 0);
        refuses(&M[..18], 9, 2, Some((18, 2, 0)), 0);
        refuses(&M[..17], 9, 1, Some((17, 1, 17)), 0);
        refuses("", 9, 1, Some((0, 1, 0)), 0);
    }

    fn wrong_newline_is_told_on_the_following_line() {
        refuses("#define d_width 9\n\n", 9, 2, Some((19, 3, 0)), 0);
    }

    fn width_tokens() {
        for token in ["014", "9\r", ""] {
            refuses(&with_width(token), 9, 11, None, 0);
        }
        refuses(&with_width("0"), 9, 21, None, 0);
        refuses_somewhere(&with_width("0 z"), 1);
        refuses(&with_width("4294967296"), 9, 11, None, 0);
        refuses(&with_width("12345678901"), 9, 11, None, 0);
        refuses(&with_width("123456789012"), 9, 1, Some((27, 1, 27)), 0);

        let mut name = [0; 256];
        let widest = with_width("4294967295");
        let read = oracle::read_header(widest.as_bytes(), &mut name).unwrap();
        assert_eq!(read.header.width, 4_294_967_295);
        assert_eq!(&name[..read.name_length], b"d");
    }

    fn x_tokens() {
        for (token, x) in [("-0", 0), ("-2147483648", -2_147_483_648)] {
            let hotspot = Some((x, 3));
            accepts(&with_hotspot(token, "3"), 9, Header { hotspot, ..M_HEADER }, &M_CELLS);
        }
        for token in ["2147483648", "+1", "-"] {
            refuses(&with_hotspot(token, "3"), 9, 13, None, 0);
        }
    }

    fn symbol_lengths() {
        accepts(&with_symbol(256), 9, M_HEADER, &M_CELLS);
        refuses(&with_symbol(257), 9, 1, Some((264, 1, 264)), 0);
    }

    fn trailing_comma_and_third_byte() {
        accepts(&M.replace("0x00}", "0x00,}"), 9, M_HEADER, &M_CELLS);
        let third = M.replace("0x00}", "0x00,0x00}");
        refuses(&third, 9, 7, Some((72, 3, 35)), 9);
    }

    fn buffers_of_other_lengths() {
        let mut seventeen = M_CELLS.to_vec();
        seventeen.extend([LENT; 8]);
        accepts(M, 17, M_HEADER, &seventeen);
        refuses(M, 18, 31, None, 9);
        refuses(M, 8, 31, None, 0);
    }

    // Further sentences of document 01 that the table leaves to the tests.

    fn include_is_no_comment() {
        refuses(&format!("#include \"x\"\n{M}"), 9, 1, Some((2, 1, 2)), 0);
        accepts(&format!("/* any\nline */\n\n{M}"), 9, M_HEADER, &M_CELLS);
    }

    fn data_and_trailer_come_before_the_buffers_length() {
        // Too few rows: a broken next data byte is told before 31.
        refuses(&M.replace("0x01", "0y01"), 8, 6, Some((63, 3, 26)), 0);
        // Too many rows: a broken trailer is told before 31.
        refuses(&M.replace("};", "}:"), 18, 7, Some((72, 3, 35)), 9);
        refuses(&format!("{M}z"), 18, 8, Some((74, 4, 1)), 9);
    }

    fn name_buffer_keeps_the_symbol_read_so_far() {
        let mut name = [LENT; 12];
        let read = oracle::read_header(M.as_bytes(), &mut name).unwrap();
        assert_eq!((read.name_length, read.place), (1, Place { byte: 61, line: 3, column: 24 }));
        assert_eq!(&name[..7], b"d_width");
        assert_eq!(name[7..], [LENT; 5]);

        let mut short = [LENT; 6];
        let refusal = oracle::read_header(M.as_bytes(), &mut short).unwrap_err();
        let place = Some(Place { byte: 14, line: 1, column: 14 });
        assert_eq!(refusal, Refusal { number: 1, place });
        assert_eq!(&short, b"d_widt");

        let refusal = oracle::read_header(M.as_bytes(), &mut []).unwrap_err();
        let place = Some(Place { byte: 8, line: 1, column: 8 });
        assert_eq!(refusal, Refusal { number: 1, place });
    }

    fn lent_name_buffer_of_256_is_the_originals_own() {
        for n in 0..=M.len() {
            let text = &M.as_bytes()[..n];
            let (mut one, mut two) = ([LENT; 9], [LENT; 9]);
            let own = oracle::read_image(text, &mut one);
            let lent = oracle::read_image_naming(text, &mut [LENT; 256], &mut two);
            assert_eq!((own, one), (lent, two), "first {n} bytes");
        }
    }

    fn next_byte_spends_before_it_reads() {
        let text = M.replace("0x01", "0y01");
        let mut decoder = oracle::Decoder::new(text.as_bytes()).unwrap();
        let place = |byte, column| Place { byte, line: 3, column };
        assert_eq!((decoder.position(), decoder.place()), (0, place(61, 24)));
        let refused = |number, place| Err(Refusal { number, place: Some(place) });
        assert_eq!(decoder.next_byte(), refused(6, place(63, 26)));
        assert_eq!((decoder.position(), decoder.place()), (1, place(63, 26)));
        assert_eq!(decoder.next_byte(), refused(6, place(64, 27)));
        assert_eq!(decoder.position(), 2);
        // The position is spent, so the trailer is wanted from here on.
        assert_eq!(decoder.next_byte(), refused(7, place(65, 28)));
    }

    fn next_byte_after_a_sound_trailer_gives_7() {
        let mut decoder = oracle::Decoder::new(M.as_bytes()).unwrap();
        assert_eq!(decoder.next_byte(), Ok(Some(1)));
        assert_eq!(decoder.next_byte(), Ok(Some(0)));
        assert_eq!(decoder.next_byte(), Ok(None));
        let end = Place { byte: 73, line: 4, column: 0 };
        for _ in 0..3 {
            assert_eq!(decoder.next_byte(), Err(Refusal { number: 7, place: Some(end) }));
            assert_eq!((decoder.position(), decoder.place()), (2, end));
        }
    }

    fn lent_decoder_goes_on_from_its_place() {
        let place = Place { byte: 65, line: 3, column: 28 };
        let mut decoder = oracle::Decoder::lent(M.as_bytes(), 9, 1, 1, place);
        assert_eq!(decoder.next_byte(), Ok(Some(0)));
        assert_eq!(decoder.next_byte(), Ok(None));
        assert_eq!(decoder.header(), M_HEADER);
    }

    fn integers() {
        for (token, value) in [
            ("0", Some(0)),
            ("4294967295", Some(4_294_967_295)),
            ("4294967296", None),
            ("00", None),
            ("", None),
            ("-0", None),
            ("1z", None),
        ] {
            assert_eq!(oracle::parse_u32(token.as_bytes()), value, "{token:?}");
        }
        for (token, value) in [
            ("-0", Some(0)),
            ("2147483647", Some(2_147_483_647)),
            ("2147483648", None),
            ("-2147483648", Some(-2_147_483_648)),
            ("-2147483649", None),
            ("--1", None),
            ("-01", None),
            ("-", None),
        ] {
            assert_eq!(oracle::parse_i32(token.as_bytes()), value, "{token:?}");
        }
    }
}
