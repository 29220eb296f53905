//! A check that a picture is well-formed XML with numbers for coordinates, enough for what the program writes.

/// What is wrong with a picture, if anything is.
pub fn wrong_with(text: &str) -> Option<String> {
    check(text).err()
}

fn check(text: &str) -> Result<(), String> {
    if let Some(c) = text.chars().find(|c| (*c < ' ' && *c != '\n') || matches!(*c, '\u{FFFE}' | '\u{FFFF}')) {
        return Err(format!("character {c:?}"));
    }
    let (mut open, mut rest, mut elements): (Vec<&str>, &str, usize) = (Vec::new(), text.trim_end(), 0);
    while let Some((before, after)) = rest.split_once('<') {
        content(before, open.is_empty())?;
        let (tag, behind) = after.split_once('>').ok_or("a tag is not closed")?;
        rest = behind;
        if let Some(name) = tag.strip_prefix('/') {
            if open.pop() != Some(name) {
                return Err(format!("</{name}> closes nothing"));
            }
            continue;
        }
        elements += 1;
        if open.is_empty() && elements > 1 {
            return Err("a second root".to_string());
        }
        let (tag, empty) = tag.strip_suffix('/').map_or((tag, false), |tag| (tag, true));
        let name = tag.split_whitespace().next().ok_or("a tag has no name")?;
        attributes(tag.strip_prefix(name).unwrap_or(""))?;
        if !empty {
            open.push(name);
        }
    }
    content(rest, true)?;
    match (open.last(), elements) {
        (Some(name), _) => Err(format!("<{name}> is not closed")),
        (None, 0) => Err("no element".to_string()),
        (None, _) => Ok(()),
    }
}

fn content(text: &str, outside: bool) -> Result<(), String> {
    if outside && !text.trim().is_empty() {
        return Err(format!("text outside the root: {text:?}"));
    }
    let mut parts = text.split('&');
    parts.next();
    match parts.find(|part| !["amp;", "lt;", "gt;"].iter().any(|entity| part.starts_with(entity))) {
        Some(part) => Err(format!("a bare & before {part:?}")),
        None if text.contains('>') => Err(format!("a bare > in {text:?}")),
        None => Ok(()),
    }
}

fn attributes(mut text: &str) -> Result<(), String> {
    let mut names = Vec::new();
    while !text.trim_start().is_empty() {
        let (name, after) = text.trim_start().split_once("=\"").ok_or(format!("no attribute: {text:?}"))?;
        let (value, rest) = after.split_once('"').ok_or(format!("{name} is not closed"))?;
        if names.contains(&name) || !name.bytes().all(|byte| byte.is_ascii_alphanumeric() || byte == b'-') {
            return Err(format!("attribute {name:?}"));
        }
        value_of(name, value)?;
        names.push(name);
        text = rest;
    }
    Ok(())
}

fn value_of(name: &str, value: &str) -> Result<(), String> {
    let number = |text: &str| text.parse::<f64>().is_ok_and(f64::is_finite);
    let fine = match name {
        "x" | "y" | "x1" | "x2" | "y1" | "y2" => number(value),
        "width" | "height" => number(value) && !value.starts_with('-'),
        "d" => value.starts_with('M') && value.split(['M', 'L', 'h', 'Z', ' ']).filter(|part| !part.is_empty()).all(number),
        _ => !value.contains(['<', '&', '"']) && !value.contains("NaN") && !value.contains("inf"),
    };
    if fine {
        Ok(())
    } else {
        Err(format!("{name} is {value:?}"))
    }
}

#[test]
fn the_check_finds_faults() {
    assert_eq!(wrong_with("<a x=\"1\"><b d=\"M1 2L3 4h0M5 6L7 8Z\"/>t &amp; u</a>\n"), None);
    let wrong = [
        "",
        "t",
        "<a>",
        "</a>",
        "<a></b>",
        "<a/><b/>",
        "<a>&</a>",
        "<a>&nbsp;</a>",
        "<a x=\"NaN\"/>",
        "<a width=\"-1\"/>",
        "<a d=\"M1 inf\"/>",
        "<a x=\"1\" x=\"2\"/>",
        "<a x=1/>",
        "<a>\u{1}</a>",
        "<a",
    ];
    for text in wrong {
        assert!(wrong_with(text).is_some(), "{text:?}");
    }
}
