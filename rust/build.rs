//! Links the proved archive, and with the feature `bench` the plain C machine into the benchmark and the tests.

use std::env;
use std::path::{Path, PathBuf};
use std::process::{exit, Command};

/// A directory with the archive, where it is not the one that `rt lib` writes to.
const ELSEWHERE: &str = "TOJALINDA_ARCHIVE";

fn main() {
    let here = PathBuf::from(env::var("CARGO_MANIFEST_DIR").unwrap());
    link_archive(&here);
    if env::var_os("CARGO_FEATURE_BENCH").is_some() {
        link_plain(&here);
    }
}

/// Links libexports.a into the library.
fn link_archive(here: &Path) {
    println!("cargo:rerun-if-env-changed={ELSEWHERE}");
    let elsewhere = env::var_os(ELSEWHERE).filter(|folder| !folder.is_empty()).map(PathBuf::from);
    let folder = match elsewhere {
        Some(folder) if folder.is_relative() => where_called().join(folder),
        Some(folder) => folder,
        None => here.join("../crates/exports/out"),
    };
    let archive = folder.join("libexports.a");
    println!("cargo:rerun-if-changed={}", archive.display());
    if !archive.is_file() {
        fail(&format!(
            "{} is missing: build it with `rt lib` in crates/exports, \
             or name a directory that has it in {ELSEWHERE}",
            archive.display()
        ));
    }
    println!("cargo:rustc-link-search=native={}", folder.display());
    println!("cargo:rustc-link-lib=static=exports");
}

/// The directory that cargo was called from, which is not the one that it runs this in.
fn where_called() -> PathBuf {
    println!("cargo:rerun-if-env-changed=PWD");
    env::var_os("PWD").map(PathBuf::from).unwrap_or_default()
}

/// Compiles the baseline and links it where it is compared with the library, and nowhere else.
fn link_plain(here: &Path) {
    let source = here.join("plain/plain.c");
    let object = PathBuf::from(env::var("OUT_DIR").unwrap()).join("plain.o");
    println!("cargo:rerun-if-changed={}", source.display());
    println!("cargo:rerun-if-changed={}", source.with_extension("h").display());
    let compiler = compiler();
    let done = Command::new(&compiler)
        .args(["-std=c11", "-O2", "-fPIC", "-Wall", "-Wextra", "-Werror", "-c", "-o"])
        .args([&object, &source])
        .status();
    if !matches!(done, Ok(status) if status.success()) {
        fail(&format!("{compiler} does not compile {}", source.display()));
    }
    println!("cargo:rustc-env=PLAIN_COMPILER={compiler} -O2");
    println!("cargo:rustc-link-arg-bins={}", object.display());
    println!("cargo:rustc-link-arg-tests={}", object.display());
}

/// What compiles the baseline: CC, or clang, which makes it faster than others do, or the machine's own.
fn compiler() -> String {
    println!("cargo:rerun-if-env-changed=CC");
    env::var("CC").unwrap_or_else(|_| {
        let clang = Command::new("clang").arg("--version").output();
        if clang.is_ok_and(|output| output.status.success()) { "clang" } else { "cc" }.to_string()
    })
}

fn fail(why: &str) -> ! {
    eprintln!("tojalinda: {why}");
    exit(1)
}
