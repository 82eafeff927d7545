//! Looks into the archive with `nm` and switches on the calls that it has,
//! so that this program builds at every stage of the archive, also without one.

use std::path::PathBuf;
use std::process::Command;

const CALLS: [&str; 5] = ["read", "write", "plan", "sheet", "gate"];

fn archive() -> PathBuf {
    match std::env::var_os("TERMINAL_ARCHIVE") {
        Some(path) => PathBuf::from(path),
        None => PathBuf::from(std::env::var_os("CARGO_MANIFEST_DIR").expect("cargo sets this"))
            .join("../target/staticlib/libterminal.a"),
    }
}

fn symbols(archive: &PathBuf) -> String {
    let out = Command::new("nm").arg("--defined-only").arg(archive).output();
    match out {
        Ok(out) => String::from_utf8_lossy(&out.stdout).into_owned(),
        Err(_) => panic!("nm is needed to look into the archive"),
    }
}

/// The compiler's own word on its version, for the benchmark's heading.
fn compiler() -> String {
    let rustc = std::env::var_os("RUSTC").expect("cargo sets this");
    let out = Command::new(rustc).arg("--version").output().expect("rustc runs");
    String::from_utf8_lossy(&out.stdout).trim().to_string()
}

fn main() {
    println!("cargo::rustc-env=RUSTC_SAYS={}", compiler());
    println!("cargo::rerun-if-env-changed=TERMINAL_ARCHIVE");
    for call in CALLS {
        println!("cargo::rustc-check-cfg=cfg(has_{call})");
    }
    let archive = archive();
    println!("cargo::rerun-if-changed={}", archive.display());
    if !archive.exists() {
        println!("cargo::warning=no archive: build it with `tools/archive` in the repository root");
        return;
    }
    let symbols = symbols(&archive);
    let mut any = false;
    for call in CALLS {
        let name = format!("haul_{call}");
        if symbols.lines().any(|line| line.split_whitespace().last() == Some(&name)) {
            println!("cargo::rustc-cfg=has_{call}");
            any = true;
        }
    }
    if any {
        let folder = archive.parent().expect("an archive stands in a folder");
        println!("cargo::rustc-link-search=native={}", folder.display());
        println!("cargo::rustc-link-lib=static=terminal");
    }
}
