//! The tests on stored answers, refusals, maps, pairs and extremes once more under valgrind, where it is on the PATH, and the collector
//! on its examples.
use std::path::Path;
use std::process::Command;

/// What the program prints under valgrind, which finds nothing.
fn run(program: &Path, args: &[&str]) -> String {
    let out = Command::new("valgrind")
        .args(["--error-exitcode=9", "--leak-check=full", "--show-leak-kinds=definite", "--errors-for-leak-kinds=definite"])
        .arg(program)
        .args(args)
        .current_dir(env!("CARGO_MANIFEST_DIR"))
        .output()
        .expect("valgrind runs");
    let (said, summary) = (String::from_utf8_lossy(&out.stdout), String::from_utf8_lossy(&out.stderr));
    print!("{said}{summary}");
    assert!(out.status.success(), "{}", out.status);
    assert!(summary.contains("ERROR SUMMARY: 0 errors from 0 contexts"));
    said.into_owned()
}

#[test]
#[cfg_attr(not(valgrind), ignore = "valgrind is not on the PATH")]
fn no_error_in_the_entries() {
    let this = std::env::current_exe().expect("this program");
    let said = run(&this, &["vectors::", "refusals::", "maps::", "pairs::", "extremes::", "--test-threads=1"]);
    let tests = ["maps::a_longer_map_answers_as_the_exact_one", "pairs::pairs_go_in_by_the_split_account"];
    for test in tests.into_iter().chain(["vectors::plans", "extremes::random_calls_answer_as_every_place_looked_at"]) {
        assert!(said.contains(&format!("test {test} ... ok")), "{test}");
    }
    assert!(said.contains(" passed; 0 failed"));
}

#[test]
#[cfg_attr(not(valgrind), ignore = "valgrind is not on the PATH")]
fn no_error_in_the_collector() {
    let collector = Path::new(env!("CARGO_BIN_EXE_collector"));
    let said = run(collector, &["examples/year.csv", "--plan", "examples/weeks.csv", "--figure", "skewness", "--csv"]);
    assert_eq!(said.lines().count(), 54);
    let said = run(collector, &["examples/year.csv", "--plan", "examples/weeks.csv", "--csv"]);
    assert!(said.starts_with("row,label,start,end,from,to,valid,figure,mark,lowest,highest\n") && said.lines().count() == 54);
    let two = ["examples/floor.csv", "examples/top_shelf.csv", "--figure", "correlation", "--window", "24", "--csv"];
    assert_eq!(run(collector, &two).lines().count(), 3361);
}
