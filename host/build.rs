//! Finds the archive libmoments.a, or has `tools/archive.sh` make it, which proves the library first.
//!
//! `MOMENTS_LIB_DIR`, where it is set, names the folder that holds the archive, from this crate's own if it is relative. Otherwise an archive
//! at the repository's root is taken if nothing of its crates is younger, and else made there: some five minutes from nothing, half a
//! minute after a check.
use std::path::{Path, PathBuf};
use std::process::{exit, Command};
use std::time::SystemTime;
use std::{env, fs, io};

fn fail(why: &str) -> ! {
    eprintln!("{why}");
    exit(1)
}

/// When anything of a folder was last written, or a name in it made or removed; what a check keeps, in `out`, is no source.
fn youngest(path: &Path) -> io::Result<SystemTime> {
    let mut time = fs::metadata(path)?.modified()?;
    if path.is_dir() {
        for entry in fs::read_dir(path)? {
            let entry = entry?;
            if entry.file_name() != "out" {
                time = time.max(youngest(&entry.path())?);
            }
        }
    }
    Ok(time)
}

/// What `tools/archive.sh` prints is shown only where it fails.
fn make(root: &Path) {
    match Command::new("bash").arg("tools/archive.sh").current_dir(root).output() {
        Ok(out) if out.status.success() => {}
        Ok(out) => {
            eprint!("{}{}", String::from_utf8_lossy(&out.stdout), String::from_utf8_lossy(&out.stderr));
            fail("tools/archive.sh failed")
        }
        Err(e) => fail(&format!(
            "tools/archive.sh cannot be run ({e}): it needs bash and the Rattle kit on the PATH; or name the folder of a libmoments.a in MOMENTS_LIB_DIR"
        )),
    }
}

fn main() {
    println!("cargo:rerun-if-changed=build.rs");
    println!("cargo:rerun-if-env-changed=MOMENTS_LIB_DIR");
    println!("cargo:rerun-if-env-changed=ORACLE_SRC");
    if Command::new("valgrind").arg("--version").output().is_ok_and(|out| out.status.success()) {
        println!("cargo:rustc-cfg=valgrind");
    }
    if env::var_os("ORACLE_SRC").is_some_and(|folder| Path::new(&folder).is_dir()) {
        println!("cargo:rustc-cfg=oracle");
    }
    let folder = match env::var_os("MOMENTS_LIB_DIR") {
        Some(folder) => PathBuf::from(folder),
        None => {
            let Some(root) = env::var_os("CARGO_MANIFEST_DIR").and_then(|here| Some(Path::new(&here).parent()?.to_path_buf()))
            else {
                fail("cargo names no folder of the crate")
            };
            let (sources, folder) = ([root.join("crates"), root.join("crates.txt")], root.join("target").join("staticlib"));
            sources.iter().for_each(|source| println!("cargo:rerun-if-changed={}", source.display()));
            let made = fs::metadata(folder.join("libmoments.a")).and_then(|archive| archive.modified());
            let older = |made: SystemTime| sources.iter().all(|source| youngest(source).is_ok_and(|time| time < made));
            let fresh = made.is_ok_and(older);
            if !fresh {
                make(&root);
            }
            folder
        }
    };
    let archive = folder.join("libmoments.a");
    if !archive.exists() {
        fail(&format!("there is no {}", archive.display()));
    }
    println!("cargo:rerun-if-changed={}", archive.display());
    println!("cargo:rustc-link-search=native={}", folder.display());
    println!("cargo:rustc-link-lib=static=moments");
}
