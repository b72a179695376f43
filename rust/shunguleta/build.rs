//! Links a copy of the proved planner's static library, and has the planner proved and built where
//! the library isn't there or is older than the planner.

use std::env;
use std::fs;
use std::io;
use std::path::{Path, PathBuf};
use std::process::{exit, Command, Stdio};
use std::time::SystemTime;

const LIBRARY: &str = "libshunguleta.a";
/// Has rt prove the planner, and writes the library to target/staticlib.
const ARCHIVE: &str = "tools/archive";

fn main() {
    println!("cargo:rerun-if-env-changed=SHUNGULETA_LIB");
    println!("cargo:rerun-if-changed=build.rs");
    let library = match env::var_os("SHUNGULETA_LIB") {
        Some(folder) => named(Path::new(&folder)),
        None => built(),
    };
    println!("cargo:rerun-if-changed={}", library.display());
    let folder = variable("OUT_DIR");
    let copy = folder.join(LIBRARY);
    // What is linked is cargo's own, and stays as it is when rt builds the next one.
    if let Err(error) = fs::read(&library).and_then(|bytes| fs::write(&copy, bytes)) {
        fail(&format!("{} can't be copied to {}: {error}", library.display(), copy.display()));
    }
    println!("cargo:rustc-link-search=native={}", folder.display());
    println!("cargo:rustc-link-lib=static=shunguleta");
    // The test of the C side links the same library.
    println!("cargo:rustc-env=SHUNGULETA_LIBRARY={}", copy.display());
}

/// A folder that cargo names.
fn variable(name: &str) -> PathBuf {
    match env::var_os(name) {
        Some(folder) => PathBuf::from(folder),
        None => fail(&format!("cargo, which names {name}, has to run this")),
    }
}

/// The library in the folder that SHUNGULETA_LIB names, where it has to be already.
fn named(folder: &Path) -> PathBuf {
    let library = folder.join(LIBRARY);
    if !library.is_file() {
        fail(&format!("SHUNGULETA_LIB is {}, where there is no {LIBRARY}", folder.display()));
    }
    library
}

/// The library that tools/archive writes.
fn built() -> PathBuf {
    let root = variable("CARGO_MANIFEST_DIR").join("../..");
    let crates = libraries(&root.join("crates"));
    for path in &crates {
        println!("cargo:rerun-if-changed={}", path.display());
    }
    let library = root.join("target/staticlib").join(LIBRARY);
    let newest = crates.iter().filter_map(|path| changed(path)).max();
    if !library.is_file() || changed(&library) < newest {
        build(&root);
        if !library.is_file() {
            fail(&format!("'{ARCHIVE}' wrote no {}", library.display()));
        }
    }
    library
}

/// What the libraries are made of. The planner stands on no program, so it isn't older for new data
/// of one, nor for what rt keeps of a check.
fn libraries(crates: &Path) -> Vec<PathBuf> {
    let entries = fs::read_dir(crates).into_iter().flatten().flatten();
    let libraries =
        entries.map(|entry| entry.path()).filter(|path| path.join("src/lib.rt").is_file());
    libraries
        .flat_map(|path| ["src", "specs", "proofs"].map(|folder| path.join(folder)))
        .filter(|folder| folder.is_dir())
        .collect()
}

/// When a file, or the newest file below a folder, was changed; none where there is nothing.
fn changed(path: &Path) -> Option<SystemTime> {
    match fs::read_dir(path) {
        Ok(entries) => entries.flatten().filter_map(|entry| changed(&entry.path())).max(),
        Err(_) => fs::metadata(path).and_then(|about| about.modified()).ok(),
    }
}

/// Has rt prove and build the planner. What rt prints goes to this program's own errors: the other
/// lines are for cargo.
fn build(root: &Path) {
    announce();
    let mut archive = Command::new(root.join(ARCHIVE));
    archive.current_dir(root).stdout(Stdio::from(io::stderr()));
    match archive.status() {
        Err(error) => fail(&format!("'{ARCHIVE}', which builds {LIBRARY}, doesn't run ({error})")),
        Ok(status) if !status.success() => fail(&format!(
            "'{ARCHIVE}' failed ({status}): install the Rattle kit, or set SHUNGULETA_LIB to the \
             library's folder"
        )),
        Ok(_) => {}
    }
}

/// Says why this build takes so long. Cargo shows a warning when this program has ended, and its
/// errors while it runs only under `-vv`, so it is said both ways.
fn announce() {
    let why = "rt proves the planner before it builds the library, which takes a few minutes; \
               SHUNGULETA_LIB may name a folder with a library that is built already";
    println!("cargo:warning={why}");
    eprintln!("shunguleta: {why}");
}

fn fail(message: &str) -> ! {
    eprintln!("shunguleta: {message}");
    exit(1);
}
