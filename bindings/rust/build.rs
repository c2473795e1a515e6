//! Links the proved archive: the one in NOBYALUK_LIB_DIR, the one in the crate's package, or the one that bindings/build proves and builds here.
use std::io::{BufRead, BufReader, Read, Write};
use std::path::{Path, PathBuf};
use std::process::{Command, Stdio};
use std::{env, fs};

fn main() {
    let out = PathBuf::from(env::var_os("OUT_DIR").unwrap());
    let here = Path::new(env!("CARGO_MANIFEST_DIR"));
    println!("cargo:rerun-if-env-changed=NOBYALUK_LIB_DIR");
    let built = match env::var_os("NOBYALUK_LIB_DIR") {
        Some(dir) => {
            let given = PathBuf::from(dir).join("libexports.a");
            println!("cargo:rerun-if-changed={}", given.display());
            given
        }
        None if here.join("libexports.a").exists() => packaged(here),
        // files that this script writes are not watched, or it would run at every build
        None => proved(),
    };
    // a copy, since the repository's target/ may be removed
    copy(&built, &out.join("libexports.a"));
    println!("cargo:rustc-link-search=native={}", out.display());
    println!("cargo:rustc-link-lib=static=exports");
}

fn copy(from: &Path, to: &Path) {
    fs::copy(from, to).unwrap_or_else(|e| panic!("{}: {e}", from.display()));
}

/// The package's archive, which is for Linux on x86-64.
fn packaged(here: &Path) -> PathBuf {
    let target = env::var("TARGET").unwrap_or_default();
    if !target.starts_with("x86_64-") || !target.contains("-linux-") {
        panic!("the proved archive in this package is for Linux on x86-64, not for {target}");
    }
    here.join("libexports.a")
}

/// Proves and builds, one call at a time in a checkout; rt skips each library that is unchanged since it was last proved.
fn proved() -> PathBuf {
    let root = Path::new(env!("CARGO_MANIFEST_DIR"))
        .join("../..")
        .canonicalize()
        .unwrap();
    // not crates/NAME/out, where rt writes
    let mut watched = vec![root.join("crates.txt")];
    for part in fs::read_dir(root.join("crates")).unwrap().flatten() {
        watched.extend(["src", "specs", "proofs"].map(|x| part.path().join(x)));
    }
    for path in watched.iter().filter(|x| x.exists()) {
        println!("cargo:rerun-if-changed={}", path.display());
    }
    let mut build = Command::new(root.join("bindings/build"))
        .stdin(Stdio::null())
        .stdout(Stdio::null())
        .stderr(Stdio::piped())
        .spawn()
        .expect("bindings/build of the repository can't be started");
    let said = passed_on(build.stderr.take().unwrap());
    if !build.wait().is_ok_and(|status| status.success()) {
        panic!("the engine was not proved; a folder with a proved libexports.a can be named by NOBYALUK_LIB_DIR:\n{said}");
    }
    root.join("target/staticlib/libexports.a")
}

/// Shows each line as it comes, because this takes minutes, and returns all of them. Cargo hides what a build script writes
/// (`cargo build -vv` shows it), so lines also go to the terminal, if there is one.
fn passed_on(lines: impl Read) -> String {
    let mut terminal = fs::OpenOptions::new().write(true).open("/dev/tty").ok();
    let mut all = String::new();
    for line in BufReader::new(lines).lines().map_while(Result::ok) {
        eprintln!("{line}");
        if let Some(tty) = &mut terminal {
            // cargo's own line is cleared first; a terminal that is gone is no fault
            let _ = writeln!(tty, "\r\x1b[K{line}");
        }
        all.push_str(&line);
        all.push('\n');
    }
    all
}
