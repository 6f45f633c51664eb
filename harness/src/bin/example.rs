//! Writes the examples' files: make examples

use harness::examples::{examples, COUNTS_FILE, SHEET_FILE, WORDS_FILE};
use std::path::Path;
use std::{fs, io};

fn main() -> io::Result<()> {
    let top = Path::new(env!("CARGO_MANIFEST_DIR")).join("..");
    for example in examples() {
        let folder = top.join(example.folder);
        fs::create_dir_all(&folder)?;
        fs::write(folder.join(SHEET_FILE), example.sheet)?;
        fs::write(folder.join(WORDS_FILE), example.words)?;
        if let Some(counts) = example.counts {
            fs::write(folder.join(COUNTS_FILE), counts)?;
        }
    }
    Ok(())
}
