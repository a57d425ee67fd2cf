//! The proved reader that was linked, refused where it is not what the crates' sources make.

use crate::interface::{self, Interface};
use std::path::{Path, PathBuf};
use std::time::SystemTime;
use std::{fs, io};

/// The repository's root.
const ROOT: &str = concat!(env!("CARGO_MANIFEST_DIR"), "/..");

/// The crate that the library is made of, with those that it stands on.
const CRATE: &str = "xbm_c";

/// The folders of a crate that a library is made of. Edits that must fail are not among them.
const FOLDERS: [&str; 3] = ["src", "specs", "proofs"];

/// Said where there is no library.
const MISSING: &str = "built without the proved reader: run `rt lib` in crates/xbm_c, \
     or set XBM_LIB_DIR to the folder of libxbm_c.a, and build again";

/// The library's calls, or why they tell nothing of the crates.
pub fn linked() -> Result<Interface, String> {
    let interface = interface::built_in().ok_or(MISSING)?;
    // Told by the build script.
    let path = option_env!("XBM_LIBRARY").ok_or(MISSING)?;
    let made = option_env!("XBM_LIBRARY_MADE").ok_or(MISSING)?;
    refusal(Path::new(ROOT), Path::new(path), made).map_or(Ok(interface), Err)
}

/// Why the library at this path, which was linked when it was made then, is not what the sources make.
fn refusal(root: &Path, library: &Path, linked: &str) -> Option<String> {
    let shown = library.display();
    let remake = "run `rt lib` in crates/xbm_c and build again";
    let Ok(made) = fs::metadata(library).and_then(|about| about.modified()) else {
        return Some(format!("the proved reader is gone from {shown}: {remake}"));
    };
    if moment(made) != linked {
        return Some(format!("the proved reader at {shown} is not the one linked: {remake}"));
    }
    match newer_source(root, made) {
        Ok(None) => None,
        Ok(Some(source)) => {
            let source = source.strip_prefix(root).unwrap_or(&source).display();
            Some(format!("the proved reader at {shown} is older than {source}: {remake}"))
        }
        Err(error) => Some(format!("the crates' sources cannot be compared: {error}")),
    }
}

/// A file or folder of the library's sources that changed after a moment.
fn newer_source(root: &Path, made: SystemTime) -> io::Result<Option<PathBuf>> {
    let list = root.join("crates.txt");
    let crates = closure(&fs::read_to_string(&list)?);
    // Its own sources at least are there.
    let mut paths = vec![list, root.join("crates").join(CRATE).join("src")];
    for name in crates {
        let folder = root.join("crates").join(name);
        // What a crate stands on may be the toolchain's.
        if folder.exists() {
            paths.extend(FOLDERS.map(|part| folder.join(part)).into_iter().filter(|p| p.exists()));
        }
    }
    while let Some(path) = paths.pop() {
        let about = fs::metadata(&path)?;
        if about.modified()? > made {
            return Ok(Some(path));
        }
        if about.is_dir() {
            for entry in fs::read_dir(&path)? {
                paths.push(entry?.path());
            }
        }
    }
    Ok(None)
}

/// The library's crate and all that it stands on, from lines `name: names`, where words on its kind may follow the name.
fn closure(list: &str) -> Vec<String> {
    let mut found = vec![CRATE.to_string()];
    let mut done = 0;
    while done < found.len() {
        let below = list.lines().find_map(|line| {
            let (name, below) = line.split_once(':')?;
            (name.split_whitespace().next() == Some(&found[done])).then_some(below)
        });
        for name in below.unwrap_or("").split_whitespace() {
            if !found.iter().any(|known| known == name) {
                found.push(name.to_string());
            }
        }
        done += 1;
    }
    found
}

/// A moment as the build script writes it.
fn moment(time: SystemTime) -> String {
    format!("{time:?}")
}

#[cfg(test)]
mod tests {
    use super::*;
    use std::fs::File;
    use std::time::Duration;

    /// A checkout with a library newer than all its files, taken away when done with.
    struct Checkout {
        root: PathBuf,
    }

    const SOURCES: [&str; 8] = [
        "crates.txt",
        "crates/xbm_c/src/lib.rt",
        "crates/xbm_c/must-fail/edit",
        "crates/image/specs/Reading.antt",
        "crates/text/proofs/deep/Proof.antt",
        "crates/text/src/lib.rt",
        "crates/claims/src/lib.rt",
        "libxbm_c.a",
    ];

    impl Checkout {
        fn new(test: &str) -> Checkout {
            let name = format!("xbm-library-{test}-{}", std::process::id());
            let checkout = Checkout { root: std::env::temp_dir().join(name) };
            for source in SOURCES {
                let path = checkout.root.join(source);
                fs::create_dir_all(path.parent().unwrap()).unwrap();
                let list =
                    "# crates\ntext:\nimage: text io\nclaims: image\nxbm_c staticlib: image\n";
                fs::write(path, if source == "crates.txt" { list } else { "" }).unwrap();
            }
            checkout.touch("libxbm_c.a", 100);
            checkout
        }

        /// The file is from so many seconds after now.
        fn touch(&self, path: &str, seconds: u64) {
            let file = File::options().append(true).open(self.root.join(path)).unwrap();
            file.set_modified(SystemTime::now() + Duration::from_secs(seconds)).unwrap();
        }

        fn made(&self) -> SystemTime {
            fs::metadata(self.root.join("libxbm_c.a")).unwrap().modified().unwrap()
        }

        /// What is said of the library, linked when it was made then.
        fn refusal(&self, linked: SystemTime) -> Option<String> {
            refusal(&self.root, &self.root.join("libxbm_c.a"), &moment(linked))
        }
    }

    impl Drop for Checkout {
        fn drop(&mut self) {
            let _ = fs::remove_dir_all(&self.root);
        }
    }

    #[test]
    fn library_newer_than_its_sources_passes() {
        let checkout = Checkout::new("fresh");
        assert_eq!(checkout.refusal(checkout.made()), None);
    }

    #[test]
    fn library_older_than_a_source_is_refused() {
        for (i, source) in SOURCES[..7].iter().enumerate() {
            let checkout = Checkout::new(&format!("old{i}"));
            checkout.touch(source, 200);
            let refused = checkout.refusal(checkout.made());
            // Neither is a part of the library.
            if source.contains("must-fail") || source.contains("claims") {
                assert_eq!(refused, None, "{source}");
            } else {
                let message = refused.unwrap_or_else(|| panic!("{source} passed unseen"));
                assert!(message.contains(&format!("is older than {source}")), "{message}");
            }
        }
    }

    #[test]
    fn source_moved_into_its_place_is_seen() {
        let checkout = Checkout::new("moved");
        let folder = checkout.root.join("crates/text/src");
        fs::rename(folder.join("lib.rt"), folder.join("other.rt")).unwrap();
        let made = fs::metadata(&folder).unwrap().modified().unwrap() - Duration::from_millis(1);
        assert!(newer_source(&checkout.root, made).unwrap().is_some());
    }

    #[test]
    fn library_that_was_not_linked_is_refused() {
        let checkout = Checkout::new("other");
        let linked = checkout.made();
        checkout.touch("libxbm_c.a", 300);
        let message = checkout.refusal(linked).expect("another library");
        assert!(message.contains("is not the one linked"), "{message}");
        fs::remove_file(checkout.root.join("libxbm_c.a")).unwrap();
        let message = checkout.refusal(linked).expect("no library");
        assert!(message.contains("is gone from"), "{message}");
    }

    #[test]
    fn sources_that_cannot_be_read_are_refused() {
        for (i, gone) in ["crates.txt", "crates/xbm_c/src"].into_iter().enumerate() {
            let checkout = Checkout::new(&format!("unread{i}"));
            fs::rename(checkout.root.join(gone), checkout.root.join("elsewhere")).unwrap();
            let message = checkout.refusal(checkout.made()).expect(gone);
            assert!(message.contains("cannot be compared"), "{message}");
        }
    }
}
