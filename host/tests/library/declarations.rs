//! src/abi.rs against docs/ABI.md and against what the crate `moments` exports: names, order and types of the parameters,
//! results, and the members of the states.
use std::collections::BTreeMap;

const RUST: &str = include_str!("../../src/abi.rs");
const STATES: &str = include_str!("../../src/moment.rs");
const DOCUMENT: &str = include_str!("../../../docs/ABI.md");
const RATTLE: &str = include_str!("../../../crates/moments_c/src/lib.rt");
const RATTLE_STATES: [(&str, &str); 5] = [
    ("VarState", include_str!("../../../crates/moment/src/var_state.rt")),
    ("CovState", include_str!("../../../crates/moment/src/cov_state.rt")),
    ("PearsonState", include_str!("../../../crates/moment/src/pearson_state.rt")),
    ("SkewState", include_str!("../../../crates/moment/src/skew_state.rt")),
    ("KurtosisState", include_str!("../../../crates/moment/src/kurtosis_state.rt")),
];

/// Parameters with their types, and the result's type.
#[derive(Clone, Debug, Default, PartialEq)]
struct Signature {
    parameters: Vec<(String, String)>,
    result: String,
}
type Signatures = BTreeMap<String, Signature>;

/// The text's parts between commas that stand in no bracket.
fn parts(text: &str) -> Vec<String> {
    let (mut depth, mut parts) = (0, vec![String::new()]);
    for c in text.chars() {
        match c {
            '[' | '(' => depth += 1,
            ']' | ')' => depth -= 1,
            _ => {}
        }
        if c == ',' && depth == 0 {
            parts.push(String::new());
        } else if let Some(part) = parts.last_mut() {
            part.push(c);
        }
    }
    parts.iter().map(|part| part.split_whitespace().collect::<Vec<_>>().join(" ")).filter(|part| !part.is_empty()).collect()
}
/// Every `moments_NAME(PARAMETERS) -> RESULT` of a text after `mark`: name, parts and result.
fn heads(text: &str, mark: &str) -> Vec<(String, Vec<String>, String)> {
    let mut heads = Vec::new();
    for (at, _) in text.match_indices(&format!("{mark}moments_")) {
        let rest = &text[at + mark.len()..];
        let Some((name, rest)) = rest.split_once('(') else { continue };
        if !name.chars().all(|c| c.is_ascii_lowercase() || c == '_') {
            continue;
        }
        let mut depth = 1;
        let end = rest.find(|c| {
            depth += i32::from(c == '(') - i32::from(c == ')');
            depth == 0
        });
        let Some((inside, rest)) = end.map(|end| rest.split_at(end)) else { continue };
        let result = rest[1..].trim_start().strip_prefix("->").unwrap_or("").trim_start();
        let result: String = result.chars().take_while(|c| c.is_ascii_alphanumeric()).collect();
        heads.push((name.into(), parts(inside), result));
    }
    heads
}
fn pair(part: &str) -> (String, String) {
    part.split_once(": ").map(|(name, kind)| (name.into(), kind.into())).unwrap_or_else(|| panic!("no type: {part}"))
}
/// A slice passes as a pointer and a length.
fn passed((name, kind): (String, String)) -> Vec<(String, String)> {
    let pointer = match (kind.strip_prefix("&[").or(kind.strip_prefix("&mut [")), kind.contains(';')) {
        (Some(element), false) => {
            format!("*{} {}", if kind.starts_with("&mut") { "mut" } else { "const" }, element.trim_end_matches(']'))
        }
        _ => return vec![(name, kind)],
    };
    vec![(name.clone(), pointer), (format!("{name}_len"), "usize".into())]
}
fn flat(parameters: Vec<(String, String)>, result: String) -> Signature {
    Signature { parameters: parameters.into_iter().flat_map(passed).collect(), result }
}
fn written(text: &str, mark: &str) -> Signatures {
    let signature = |(name, parts, result): (String, Vec<String>, String)| {
        (name, flat(parts.iter().map(|part| pair(part)).collect(), result))
    };
    heads(text, mark).into_iter().map(signature).collect()
}

fn state_of(entry: &str) -> String {
    let kind = entry.trim_start_matches("moments_").split('_').next().unwrap_or("");
    format!("{}{}State", kind[..1].to_uppercase(), &kind[1..])
}
/// The document's signatures: `..` stands for what the last whole one has there, a bare name for its parameter of that name,
/// and a bare `state` for the entry's own.
fn documented() -> Signatures {
    let code: String = DOCUMENT.lines().filter(|line| line.starts_with("    ")).map(|line| format!("{line}\n")).collect();
    let mut last: (Vec<(String, String)>, String) = Default::default();
    let mut all = BTreeMap::new();
    for (name, parts, result) in heads(&code, "") {
        let whole = parts.iter().all(|part| part.contains(": "));
        let short = parts.iter().any(|part| part.contains(".."));
        let mut parameters: Vec<(String, String)> = Vec::new();
        for part in &parts {
            let place = |name: &str| last.0.iter().position(|(known, _)| known == name).expect(name);
            if let Some(first) = part.strip_prefix(".. ") {
                let first = pair(first);
                parameters.extend_from_slice(&last.0[..place(&first.0)]);
                parameters.push(first);
            } else if let Some(from) = part.strip_suffix(" ..") {
                parameters.extend_from_slice(&last.0[place(from)..]);
            } else if part == "state" {
                parameters.push((part.clone(), state_of(&name)));
            } else if part.contains(": ") {
                parameters.push(pair(part));
            } else {
                parameters.push(last.0[place(part)].clone());
            }
        }
        let result = if result.is_empty() { last.1.clone() } else { result };
        if whole && !short {
            last = (parameters.clone(), result.clone());
        }
        all.insert(name, flat(parameters, result));
    }
    // 'likewise': the same of the other states
    let others = ["skew", "kurtosis", "cov", "pearson"];
    assert!(code.contains("likewise skew, kurtosis; cov and pearson with (x, y)") && code.contains("likewise the other four"));
    for (operation, second) in [("insert_one", true), ("combine", false)] {
        for other in others {
            let entry = format!("moments_{other}_{operation}");
            let of_var = &all[&format!("moments_var_{operation}")];
            let renamed = |kind: &str| if kind == "VarState" { state_of(&entry) } else { kind.into() };
            let mut parameters: Vec<_> = of_var.parameters.iter().map(|(name, kind)| (name.clone(), renamed(kind))).collect();
            if second && ["cov", "pearson"].contains(&other) {
                parameters.push(("y".into(), "f64".into()));
            }
            let result = renamed(&of_var.result);
            all.insert(entry, Signature { parameters, result });
        }
    }
    all
}

#[test]
fn every_entry_is_declared_as_documented_and_as_exported() {
    let (rust, rattle, documented) = (written(RUST, "fn "), written(RATTLE, "pub extern \"C\" fn "), documented());
    assert_eq!(rattle.len(), 34);
    for (name, signature) in &rattle {
        assert_eq!(rust.get(name), Some(signature), "{name} of src/abi.rs and of the Rattle source");
        assert_eq!(documented.get(name), Some(signature), "{name} of docs/ABI.md and of the Rattle source");
    }
    assert_eq!(rust.len(), rattle.len());
    assert_eq!(documented.len(), rattle.len());
}

#[test]
fn states_have_the_members_of_the_rattle_source_in_its_order() {
    for (state, source) in RATTLE_STATES {
        let (above, below) = source.split_once(&format!("\npub struct {state} {{")).expect(state);
        let attributes: Vec<&str> = above.lines().rev().take_while(|line| line.starts_with("#[")).collect();
        assert!(attributes.contains(&"#[repr(C)]"), "{state}");
        let body = below.split_once('}').expect(state).0;
        let members: Vec<&str> =
            body.lines().filter_map(|line| line.trim().strip_prefix("pub ")?.strip_suffix(": f64,")).collect();
        let declared =
            STATES.split_once(&format!("\n    {state}, {},", members.len())).expect(state).1.split_once(';').expect(state).0;
        let declared: Vec<&str> = declared
            .split_once(":\n")
            .expect(state)
            .1
            .lines()
            .map(str::trim)
            .filter(|line| !line.starts_with("///") && !line.is_empty())
            .map(|line| line.trim_end_matches(','))
            .collect();
        assert_eq!(declared, members, "{state}");
    }
    assert_eq!(size_of::<moments::PearsonState>(), 48);
}
