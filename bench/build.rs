//! Which compiler this is built with, for the benchmark's first lines.
use std::{env, process::Command};

fn main() {
    println!("cargo:rerun-if-changed=build.rs");
    let version = env::var_os("RUSTC").and_then(|rustc| Command::new(rustc).arg("--version").output().ok());
    let version = version.map_or(String::new(), |out| String::from_utf8_lossy(&out.stdout).trim().into());
    println!("cargo:rustc-env=COMPILER={version}");
}
