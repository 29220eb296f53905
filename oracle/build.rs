//! Copies the unchanged sources out of ORACLE_SRC into gen/ (beside this file: an include! out of
//! OUT_DIR makes the sources' glob imports ambiguous, E0659), applies document 01's
//! stand-ins for powf(1.5) and powi(2), and appends ONE line to src/moment.rs and to
//! src/rolling/moment.rs that opens a child module (so that private items can be reached).
//! Missing sibling modules are written as stubs that hold nothing but the named types.
use std::path::{Path, PathBuf};
use std::{env, fs};

const FILES: [&str; 7] = [
    "src/moment.rs",
    "src/rolling/moment.rs",
    "src/rolling/no_nulls/mod.rs",
    "src/rolling/nulls/mod.rs",
    "src/rolling/no_nulls/moment.rs",
    "src/rolling/nulls/moment.rs",
    "src/rolling/mod.rs",
];

/// ORACLE_SRC holds either `src--src--moment.rs.txt` names or the plain paths.
fn find(root: &Path, rel: &str) -> PathBuf {
    let flat = root.join(format!("src--{}.txt", rel.replace('/', "--")));
    if flat.exists() {
        return flat;
    }
    for p in [root.join(rel), root.join(format!("{rel}.txt")), root.join(rel.strip_prefix("src/").unwrap())] {
        if p.exists() {
            return p;
        }
    }
    panic!("no source for {rel} under {}", root.display());
}

fn replace_n(text: String, from: &str, to: &str, n: usize) -> String {
    assert_eq!(text.matches(from).count(), n, "expected {n} times {from:?}");
    text.replace(from, to)
}

fn main() {
    println!("cargo:rerun-if-env-changed=ORACLE_SRC");
    println!("cargo:rerun-if-changed=build.rs");
    println!("cargo:rerun-if-changed=standin");
    let here = PathBuf::from(env::var("CARGO_MANIFEST_DIR").unwrap());
    let Some(root) = env::var_os("ORACLE_SRC").map(PathBuf::from) else {
        eprintln!("set ORACLE_SRC to the folder with the sources of polars-compute 0.55.2 (moment.rs and rolling/)");
        std::process::exit(1);
    };
    let out = here.join("gen");
    for rel in FILES {
        let from = find(&root, rel);
        println!("cargo:rerun-if-changed={}", from.display());
        let mut text = fs::read_to_string(&from).unwrap();
        if rel == "src/moment.rs" {
            text = replace_n(text, "m2.powf(1.5)", "(m2 * m2.sqrt())", 1);
            text = replace_n(
                text,
                "(f64::EPSILON * self.mean).powi(2)",
                "((f64::EPSILON * self.mean) * (f64::EPSILON * self.mean))",
                2,
            );
            text += &format!("\n#[path = {:?}]\npub mod oracle_access;\n", here.join("standin/moment_access.rs"));
        }
        assert!(!text.contains("powf(") && !text.contains("powi("));
        if rel == "src/rolling/moment.rs" {
            text += &format!("\n#[path = {:?}]\npub mod oracle_access;\n", here.join("standin/window_access.rs"));
        }
        let to = out.join(rel);
        fs::create_dir_all(to.parent().unwrap()).unwrap();
        fs::write(to, text).unwrap();
    }
    let stubs: [(&str, &str); 18] = [
        ("mean", "pub struct MeanWindow;\n"),
        ("min_max", ""),
        ("quantile_filter", ""),
        ("rank", ""),
        ("sum", "pub struct SumWindow;\n"),
        ("arg_min_max", "pub struct ArgMaxWindow;\npub struct ArgMinMaxWindow;\npub struct ArgMinWindow;\n"),
        ("min_by_max_by", ""),
        ("window", ""),
        ("no_nulls/mean", ""),
        ("no_nulls/min_max", ""),
        ("no_nulls/quantile", ""),
        ("no_nulls/rank", ""),
        ("no_nulls/sum", ""),
        ("nulls/mean", ""),
        ("nulls/min_max", ""),
        ("nulls/quantile", ""),
        ("nulls/rank", ""),
        ("nulls/sum", ""),
    ];
    for (rel, text) in stubs {
        fs::write(out.join("src/rolling").join(format!("{rel}.rs")), format!("// stub\n{text}")).unwrap();
    }
}
