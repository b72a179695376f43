//! Writes the stored calls and the lines of their answers, the answers by the reference.
//!
//! `make-cases [FOLDER]` writes FOLDER/data/calls and FOLDER/stdout; the folder is the repository's
//! crates/cases unless named.

use std::path::{Path, PathBuf};
use std::{env, fs, io};

use trials::calls::by_reference;
use trials::cases::all;

fn main() -> io::Result<()> {
    let folder = match env::args_os().nth(1) {
        Some(folder) => PathBuf::from(folder),
        None => Path::new(env!("CARGO_MANIFEST_DIR")).join("../../crates/cases"),
    };
    let stored = all(by_reference);
    fs::create_dir_all(folder.join("data"))?;
    fs::write(folder.join("data/calls"), stored.calls())?;
    fs::write(folder.join("stdout"), stored.lines())?;
    let (bytes, lines) = (stored.calls().len(), stored.lines().len());
    println!("{} calls in {bytes} bytes, {lines} bytes of lines", stored.count());
    Ok(())
}
