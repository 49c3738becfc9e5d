//! Links the static library: the one in the folder `MINI_MOKA_LIB_DIR`, an absolute path, that of a
//! release which has this package too, or one that it builds from this repository.

use std::env;
use std::fs::{self, OpenOptions};
use std::io::{BufRead, BufReader, Read, Write};
use std::path::{Path, PathBuf};
use std::process::{exit, Command, Stdio};

const FOLDER: &str = "MINI_MOKA_LIB_DIR";
const ARCHIVE: &str = "libmini_moka.a";

fn main() {
    println!("cargo:rerun-if-changed=build.rs");
    println!("cargo:rustc-check-cfg=cfg(mini_moka_watched)");
    println!("cargo:rerun-if-env-changed={FOLDER}");
    let folder = match env::var_os(FOLDER) {
        Some(folder) => named(Path::new(&folder)),
        None => released().unwrap_or_else(built),
    };
    println!("cargo:rustc-link-search=native={}", folder.display());
    println!("cargo:rustc-link-lib=static=mini_moka");
}

/// Returns the folder that the variable names, which must have the archive.
fn named(folder: &Path) -> PathBuf {
    // Cargo runs this program in the package's folder, and not in the one that a user is in.
    if !folder.is_absolute() {
        let folder = folder.display();
        fail(&format!("{FOLDER} must be an absolute path: {folder}"));
    }
    let folder = match folder.canonicalize() {
        Ok(found) => found,
        Err(_) => fail(&format!("{FOLDER} is not a folder: {}", folder.display())),
    };
    if !has_archive(&folder) {
        fail(&format!("{FOLDER} has no {ARCHIVE}: {}", folder.display()));
    }
    folder
}

/// Returns the library's folder of a release, if this package is in one.
fn released() -> Option<PathBuf> {
    let folder = Path::new("../../lib").canonicalize().ok()?;
    has_archive(&folder).then_some(folder)
}

/// Returns `true` if the folder has the archive, which cargo watches then.
fn has_archive(folder: &Path) -> bool {
    let archive = folder.join(ARCHIVE);
    let is_there = archive.is_file();
    if is_there {
        println!("cargo:rerun-if-changed={}", archive.display());
    }
    is_there
}

/// Proves and builds the library of this repository, and copies it to the folder `OUT_DIR`.
///
/// `build_library` writes a new archive each time, so cargo doesn't watch that one: it would run
/// this program in every build.
fn built() -> PathBuf {
    let root = Path::new("../..");
    if !root.join("crates/mini_moka_c").is_dir() || !is_on_path("rt") {
        fail(&format!(
            "there is no library to link: set {FOLDER} to a folder that has {ARCHIVE}, \
             or build this package in its repository with the Rattle kit's `rt` on the path"
        ));
    }
    watch(root);
    build(root);
    let folder = PathBuf::from(env::var_os("OUT_DIR").unwrap_or_default());
    let archive = root.join("library").join(ARCHIVE);
    if let Err(error) = fs::copy(&archive, folder.join(ARCHIVE)) {
        fail(&format!("can't copy {ARCHIVE} of ./build_library: {error}"));
    }
    folder
}

/// Returns `true` if a folder of `PATH` has a file of this name.
fn is_on_path(name: &str) -> bool {
    let path = env::var_os("PATH").unwrap_or_default();
    env::split_paths(&path).any(|folder| folder.join(name).is_file())
}

/// Makes cargo run this program again if a source of the library changes, but not for the outputs
/// of builds beside the sources.
fn watch(root: &Path) {
    let crates = fs::read_dir(root.join("crates")).into_iter().flatten();
    let folders = crates
        .flatten()
        .flat_map(|entry| ["src", "specs", "proofs"].map(|folder| entry.path().join(folder)));
    let files = ["build_library", "crates.txt", "HANDLES", "include"].map(|file| root.join(file));
    for path in folders.chain(files).filter(|path| path.exists()) {
        println!("cargo:rerun-if-changed={}", path.display());
    }
}

/// Runs `build_library`, which proves and builds the library, and shows its progress.
fn build(root: &Path) {
    let run = root.canonicalize().and_then(|root| {
        let mut command = Command::new(root.join("build_library"));
        let mut child = command.current_dir(root).stderr(Stdio::piped()).spawn()?;
        if let Some(said) = child.stderr.take() {
            show(said);
        }
        child.wait()
    });
    match run {
        Ok(status) if status.success() => {}
        Ok(status) => fail(&format!("./build_library failed: {status}")),
        Err(error) => fail(&format!("can't run ./build_library: {error}")),
    }
}

/// Prints each line of the command as it arrives.
///
/// Cargo shows the output of this program only if it fails, or with `-vv`. A build takes minutes,
/// so the lines also go to the terminal, if there is one.
fn show(said: impl Read) {
    let mut terminal = OpenOptions::new().write(true).open("/dev/tty").ok();
    for line in BufReader::new(said).lines().map_while(Result::ok) {
        eprintln!("{line}");
        if let Some(terminal) = &mut terminal {
            let _ = writeln!(terminal, "{line}");
        }
    }
}

/// Prints a sentence, and ends the build.
fn fail(sentence: &str) -> ! {
    eprintln!("mini-moka-proved: {sentence}");
    exit(1);
}
