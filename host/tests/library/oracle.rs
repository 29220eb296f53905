//! Random calls against the Rust itself, where ORACLE_SRC names the folder of its sources: the programs `fuzz` and `face` of oracle/.
use std::path::Path;
use std::process::Command;

/// Runs a program of oracle/; it ends with 1 if any answer differs.
fn run(program: &str, calls: &str) {
    let manifest = Path::new(env!("CARGO_MANIFEST_DIR")).join("../oracle/Cargo.toml");
    let seed = std::env::var("ORACLE_SEED").unwrap_or("20261116".into());
    let out = Command::new(env!("CARGO"))
        .args(["run", "--release", "--offline", "--quiet", "--features", "host", "--bin", program, "--manifest-path"])
        .arg(manifest)
        .args(["--", calls, &seed])
        .output()
        .expect("cargo runs");
    print!("{}{}", String::from_utf8_lossy(&out.stdout), String::from_utf8_lossy(&out.stderr));
    assert!(out.status.success(), "{program} of seed {seed}: {}", out.status);
}

#[test]
#[cfg_attr(not(oracle), ignore = "ORACLE_SRC names no folder")]
fn random_calls_on_windows_answer_as_the_rust_does() {
    run("fuzz", "60000");
}

#[test]
#[cfg_attr(not(oracle), ignore = "ORACLE_SRC names no folder")]
fn random_calls_on_arrays_and_states_answer_as_the_rust_does() {
    run("face", "60000");
}
