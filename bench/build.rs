//! Links the port's static library, redirects the allocations of the program `bytes`, and finds the source of the original's sketch.
use std::env;
use std::path::{Path, PathBuf};
use std::process::Command;

fn folder_of(variable: &str) -> String {
    println!("cargo:rerun-if-env-changed={variable}");
    env::var(variable).unwrap_or_else(|_| panic!("{variable} is not set: build by bench/run"))
}

/// Returns the source file of the original's sketch, in the package that cargo found.
fn original_sketch() -> PathBuf {
    println!("cargo:rerun-if-env-changed=MOKA_BENCH_CARGO_CONFIG");
    let mut cargo = Command::new(env::var_os("CARGO").unwrap_or("cargo".into()));
    cargo.args(["metadata", "--format-version=1", "--offline"]);
    if let Some(config) = env::var_os("MOKA_BENCH_CARGO_CONFIG") {
        cargo.arg("--config").arg(config);
    }
    let output = cargo.output().expect("cargo can't be started");
    let told = String::from_utf8_lossy(&output.stdout);
    let manifest = manifest_of(&told, "mini-moka").unwrap_or_else(|| {
        panic!(
            "cargo metadata doesn't name the original: {}",
            String::from_utf8_lossy(&output.stderr)
        )
    });
    let file = Path::new(manifest).with_file_name("src/common/frequency_sketch.rs");
    assert!(file.is_file(), "the original has no {}", file.display());
    file
}

/// Returns the path of a package's manifest, from the output of `cargo metadata`.
fn manifest_of<'a>(told: &'a str, package: &str) -> Option<&'a str> {
    let (_, of_package) = told.split_once(&format!("\"name\":\"{package}\",\"version\":"))?;
    let (_, path) = of_package.split_once("\"manifest_path\":\"")?;
    Some(path.split_once('"')?.0)
}

fn main() {
    let sketch = original_sketch();
    println!("cargo:rerun-if-changed={}", sketch.display());
    println!("cargo:rustc-env=ORIGINAL_SKETCH={}", sketch.display());
    let library = folder_of("MOKA_TRACE_FOLDER");
    let c_library = folder_of("KIT_C_FOLDER");
    println!("cargo:rerun-if-changed={library}/libbench_trace.a");
    println!("cargo:rustc-link-search=native={library}");
    println!("cargo:rustc-link-search=native={c_library}");
    println!("cargo:rustc-link-lib=static=bench_trace");
    println!("cargo:rustc-link-lib=static=libc_c");
    for name in ["malloc", "realloc", "free"] {
        println!("cargo:rustc-link-arg-bin=bytes=-Wl,--wrap={name}");
    }
}
