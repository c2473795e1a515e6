//! Compiles src/limit.c for x86-64 without extensions, as the engine is: by the compiler that CC names, by clang if it is installed,
//! or by cc.
use std::env;
use std::path::PathBuf;
use std::process::Command;

const HEADER: &str = "../../bindings/c";
const SOURCE: &str = "src/limit.c";

fn compiler() -> String {
    let works = |name: &str| Command::new(name).arg("--version").output().is_ok();
    let named = env::var("CC").ok();
    named.unwrap_or_else(|| if works("clang") { "clang" } else { "cc" }.into())
}

/// Runs a command; a failure ends the build with what it printed.
fn run(command: &mut Command) {
    let ran = command
        .output()
        .unwrap_or_else(|error| panic!("{command:?}: {error}"));
    let printed = String::from_utf8_lossy(&ran.stderr);
    assert!(ran.status.success(), "{command:?}\n{printed}");
}

fn main() {
    println!("cargo:rerun-if-changed={SOURCE}");
    println!("cargo:rerun-if-changed={HEADER}/nobyaluk.h");
    println!("cargo:rerun-if-env-changed=CC");
    let out = PathBuf::from(env::var_os("OUT_DIR").unwrap());
    let (object, archive) = (out.join("limit.o"), out.join("liblimit.a"));
    let compiler = compiler();
    run(Command::new(&compiler)
        .args([
            "-std=c11",
            "-O3",
            "-march=x86-64",
            "-fPIC",
            "-Wall",
            "-Wextra",
            "-Werror",
        ])
        .args(["-I", HEADER, "-c", SOURCE, "-o"])
        .arg(&object));
    run(Command::new("ar").arg("crs").arg(&archive).arg(&object));
    println!("cargo:rustc-env=LIMIT_COMPILER={compiler}");
    println!("cargo:rustc-link-search=native={}", out.display());
    println!("cargo:rustc-link-lib=static=limit");
}
