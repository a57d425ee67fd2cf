//! Times the proved reader beside the original in one process.
//!
//! `bench` prints times and ratios for all cases; `bench --instructions CASE` counts the
//! instructions of one decoding by each side with callgrind.

#[cfg(has_original)]
fn main() -> std::process::ExitCode {
    timing::main()
}

#[cfg(not(has_original))]
fn main() -> std::process::ExitCode {
    eprintln!("bench: {}", differential::ORIGINAL_MISSING);
    std::process::ExitCode::from(2)
}

#[cfg(has_original)]
mod timing {
    use differential::interface::Interface;
    use differential::library;
    use differential::random::Random;
    use differential::texts::{row_bytes, Layout, Mask};
    use image::ImageDecoder;
    use oracle::{XbmDecoder, NAME_BUFFER_LENGTH};
    use std::hint::black_box;
    use std::process::{Command, ExitCode};
    use std::time::{Duration, Instant};

    /// The time that both sides of one case take together.
    const BUDGET: Duration = Duration::from_secs(3);

    /// A sample holds decodings enough to last about this long.
    const SAMPLE: Duration = Duration::from_micros(200);

    /// Fewer rounds than this tell no least time.
    const FEWEST_ROUNDS: u32 = 15;

    struct Case {
        /// On the command line.
        name: &'static str,
        /// In the table.
        title: &'static str,
        mask: fn(&mut Random) -> Mask,
    }

    const fn case(name: &'static str, title: &'static str, mask: fn(&mut Random) -> Mask) -> Case {
        Case { name, title, mask }
    }

    /// Pictures and preambles, data as the X tools write it; then one picture in other layouts of real files.
    const CASES: [Case; 12] = [
        case("circle", "256x256 circle", |_| circle(256)),
        case("random", "256x256 random", |random| noise(random, 256, 256)),
        case("narrow", "64 KiB text, 9 wide", |random| noise(random, 9, NARROW_ROWS)),
        case("preamble", "4 KiB preamble, 16x16", |random| after(COPYRIGHT_LINE, 4096, random)),
        case("short-lines", "64 KiB of 1-byte lines, 16x16", |random| after(b"*\n", 65536, random)),
        case("large", "4096x4096 random", |random| noise(random, 4096, 4096)),
        case("one-line", "256x256, one line", |random| laid_out(Layout::OneLine, random)),
        case("compact", "256x256, compact", |random| laid_out(Layout::Compact, random)),
        case("newlines", "256x256, comma and newline", |random| {
            laid_out(Layout::ByteALine, random)
        }),
        case("bare", "256x256, bare commas in lines", |random| laid_out(Layout::BareLines, random)),
        case("tabs", "256x256, tabs", |random| laid_out(Layout::Tabs, random)),
        case("capitals", "256x256, 0X", |random| laid_out(Layout::Capitals, random)),
    ];

    pub fn main() -> ExitCode {
        let interface = match library::linked() {
            Ok(interface) => interface,
            Err(message) => {
                eprintln!("bench: {message}");
                return ExitCode::from(2);
            }
        };
        let words: Vec<String> = std::env::args().skip(1).collect();
        let words: Vec<&str> = words.iter().map(String::as_str).collect();
        let named = |word: &str| CASES.iter().find(|case| case.name == word);
        let (act, case) = match words[..] {
            [] => {
                table(&interface);
                return ExitCode::SUCCESS;
            }
            ["--instructions", case] => ("instructions", named(case)),
            ["--one", case, side] => (side, named(case)),
            _ => ("", None),
        };
        match (act, case) {
            ("instructions", Some(case)) => count_instructions(case),
            ("original", Some(case)) => Decoding::new(case).original_once(),
            ("ours", Some(case)) => Decoding::new(case).ours_once(&interface),
            _ => {
                let names = CASES.map(|case| case.name).join(" | ");
                eprintln!("usage: bench [--instructions CASE], with CASE one of {names}");
                return ExitCode::from(2);
            }
        }
        ExitCode::SUCCESS
    }

    /// A text with the buffers that both sides are lent in turn.
    struct Decoding {
        text: Vec<u8>,
        name: [u8; NAME_BUFFER_LENGTH],
        pixels: Vec<u8>,
    }

    impl Decoding {
        fn new(case: &Case) -> Decoding {
            let mut random = Random::new(1);
            let text = (case.mask)(&mut random).text(&mut random);
            let mut name = [0; NAME_BUFFER_LENGTH];
            let read = oracle::read_header(&text, &mut name);
            let header = read.expect("the benchmark's headers are sound").header;
            let pixels = vec![0; header.width as usize * header.height as usize];
            Decoding { text, name, pixels }
        }

        #[inline(never)]
        fn original_once(&mut self) {
            let decoder = XbmDecoder::new(black_box(self.text.as_slice()));
            let answer = decoder.and_then(|decoder| decoder.read_image(&mut self.pixels));
            black_box(answer).expect("the original accepts the benchmark's texts");
        }

        #[inline(never)]
        fn ours_once(&mut self, interface: &Interface) {
            let text = black_box(self.text.as_mut_slice());
            let answer = interface.read_image(text, &mut self.name, &mut self.pixels);
            assert_eq!(black_box(answer).result, 0, "ours accepts the benchmark's texts");
        }
    }

    /// As many rows of two bytes as a text of 64 KiB holds.
    const NARROW_ROWS: usize = 5235;

    const COPYRIGHT_LINE: &[u8] =
        b" * Permission to use, copy, modify and distribute this mask is granted to all.\n";

    fn circle(side: usize) -> Mask {
        let middle = side as i64 / 2;
        let radius = middle - 8;
        let mut data = vec![0; row_bytes(side) * side];
        for y in 0..side {
            for x in 0..side {
                let (dx, dy) = (x as i64 - middle, y as i64 - middle);
                if dx * dx + dy * dy <= radius * radius {
                    data[y * row_bytes(side) + x / 8] |= 1 << (x % 8);
                }
            }
        }
        Mask::new("circle", side, side, data)
    }

    fn noise(random: &mut Random, width: usize, height: usize) -> Mask {
        let data = (0..row_bytes(width) * height).map(|_| random.byte()).collect();
        Mask::new("noise", width, height, data)
    }

    /// The random picture in another layout.
    fn laid_out(layout: Layout, random: &mut Random) -> Mask {
        Mask { layout, ..noise(random, 256, 256) }
    }

    /// A small picture after a line repeated to at least so many bytes.
    fn after(line: &[u8], preamble: usize, random: &mut Random) -> Mask {
        let mut mask = noise(random, 16, 16);
        mask.preamble = line.repeat(preamble.div_ceil(line.len()));
        mask
    }

    fn table(interface: &Interface) {
        println!("Least time of many rounds, the two sides alternating in one process.");
        println!("Both are lent the same buffers, not cleared between rounds.");
        println!();
        println!(
            "{:<32}{:>12}{:>15}{:>15}{:>9}{:>9}",
            "case", "text bytes", "original", "ours", "ratio", "rounds"
        );
        for case in CASES {
            let mut decoding = Decoding::new(&case);
            decoding.original_once();
            let wanted = decoding.pixels.clone();
            decoding.pixels.fill(77);
            decoding.ours_once(interface);
            assert!(wanted == decoding.pixels, "the two sides decode alike");

            let (original, ours, rounds) = least_times(&mut decoding, interface);
            println!(
                "{:<32}{:>12}{:>12.2} us{:>12.2} us{:>9.2}{rounds:>9}",
                case.title,
                decoding.text.len(),
                original * 1e6,
                ours * 1e6,
                original / ours,
            );
        }
        println!("\nratio: the original's time divided by ours");
    }

    /// Seconds for one decoding by the original and by ours, with the rounds made.
    fn least_times(decoding: &mut Decoding, interface: &Interface) -> (f64, f64, u32) {
        let once = timed(1, || decoding.original_once());
        let batch = (SAMPLE.as_secs_f64() / once).ceil().max(1.0) as u32;
        let (mut original, mut ours) = (f64::MAX, f64::MAX);
        let started = Instant::now();
        let mut rounds = 0;
        while rounds < FEWEST_ROUNDS || started.elapsed() < BUDGET {
            original = original.min(timed(batch, || decoding.original_once()));
            ours = ours.min(timed(batch, || decoding.ours_once(interface)));
            rounds += 1;
        }
        (original, ours, rounds)
    }

    /// Seconds for one of so many repetitions.
    fn timed(repetitions: u32, mut work: impl FnMut()) -> f64 {
        let started = Instant::now();
        for _ in 0..repetitions {
            work();
        }
        started.elapsed().as_secs_f64() / f64::from(repetitions)
    }

    /// Runs one decoding of each side under callgrind, counting only inside it.
    fn count_instructions(case: &Case) {
        let case = case.name;
        let program = std::env::current_exe().expect("this program has a path");
        for side in ["original", "ours"] {
            let output = Command::new("valgrind")
                .args(["--tool=callgrind", "--callgrind-out-file=/dev/null"])
                .arg(format!("--toggle-collect=*{side}_once*"))
                .arg(&program)
                .args(["--one", case, side])
                .output();
            let Ok(output) = output else {
                println!("valgrind was not found: no instructions counted");
                return;
            };
            let told = String::from_utf8_lossy(&output.stderr).into_owned();
            let collected = told.lines().find_map(|line| line.split_once("Collected : "));
            match collected {
                Some((_, count)) => println!("{case}, {side}: {count} instructions"),
                None => println!("{case}, {side}: callgrind told no count:\n{told}"),
            }
        }
    }
}
