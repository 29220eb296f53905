#!/usr/bin/env python3
"""Counts, in the .rt files of crates/, the places of the points of docs/DESIGN-PASS.md.

Usage: points.py [-v] [FOLDER]   FOLDER has crates/ (default: the repository); -v names each place.
"""
import difflib
import os
import re
import sys
from collections import defaultdict

MOMENTS = r"Variance|Kurtosis|Pearson|Skew|Cov|Var|variance|kurtosis|pearson(?:_corr)?|skew|cov|var"


def sources(root):
    for folder, _, names in sorted(os.walk(os.path.join(root, "crates"))):
        if "/out" in folder or "/src" not in folder:
            continue
        for name in sorted(names):
            if name.endswith(".rt"):
                path = os.path.join(folder, name)
                with open(path, encoding="utf-8") as file:
                    yield os.path.relpath(path, root), file.read()


def without_comments(text):
    return re.sub(r"//[^\n]*", "", text)


def functions(text):
    """Each function but those of a trait's impl, which are its instances, with its line, name, head (to the contract) and body."""
    for found in re.finditer(r"^( *)(?:pub(?:\(crate\))? )?(?:const )?fn (\w+)", text, re.M):
        outer = re.findall(r"^(?:impl|(?:pub(?:\(crate\))? )?trait|mod)\b.*", text[: found.start()], re.M)
        if found.group(1) and outer and re.match(r"impl.* for ", outer[-1]):
            continue
        end = re.compile(r"^%s\}" % found.group(1), re.M).search(text, found.end())
        whole = text[found.start() : end.end() if end else len(text)]
        head = re.split(r"\n\s*(?:requires|ensures|\{)", whole, maxsplit=1)[0]
        body = whole.split("\n%s{\n" % found.group(1), 1)[-1]
        yield text.count("\n", 0, found.start()) + 1, found.group(2), head, body


def lines(text, pattern):
    for found in re.finditer(pattern, text, re.M):
        yield text.count("\n", 0, found.start()) + 1, found.group(0).strip()


def twins(files):
    """Groups of functions that are alike but for the moment's names, the members and numbers."""
    groups = defaultdict(list)
    for path, text in files:
        for line, name, head, body in functions(text):
            code = re.sub(r"\s+", " ", head + body)
            code = re.sub(MOMENTS, "M", code)
            tokens = re.findall(r"\w+|\S", re.sub(r"\b\d[\d_.]*\b", "N", code))
            key = re.sub(MOMENTS, "M", name)
            crate = path.split("/")[1]
            for group in groups[crate, key]:
                if difflib.SequenceMatcher(None, group[0][2], tokens, autojunk=False).ratio() >= 0.8:
                    group.append((path, line, tokens))
                    break
            else:
                groups[crate, key].append([(path, line, tokens)])
    for (crate, key), alike in groups.items():
        for group in alike:
            if len(group) > 1:
                for path, line, _ in group:
                    yield path, line, f"{key} x{len(group)}"


def places(root):
    files = [(path, without_comments(text)) for path, text in sources(root)]
    found = defaultdict(list)
    for path, text in files:
        for line, what in lines(text, r"^.*\benum \w+.*$"):
            found["1 own enums"].append((path, line, what))
        for line, name, head, _ in functions(text):
            for flag in re.findall(r"\b(\w*has_map): bool", head):
                found["1 flags with a value beside"].append((path, line, f"{name}: {flag}"))
            if re.search(r"-> (?:u32|u8)$", head.strip()) and re.search(r"refus|plan_|rolling_|first|moments_|^var|^two_|^M_", name):
                found["1 numbers for refusals"].append((path, line, name))
        for line, what in lines(text, r"^\s*(?:pub )?(?:number|doubt): u\d+,|^\s*(?:pub )?(?:refused|fixed): bool,|Refused\(u32\)"):
            found["1 numbers and flags in types"].append((path, line, what))
        for line, what in lines(text, r"^\s*while .*$"):
            found["3 loops that count by hand"].append((path, line, what))
        for line, what in lines(text, r"if (\w+) < (\w+) \{ \1 \} else \{ \2 \}|if \w+ < \w+ \{ \w+ \} else \{ \w+ \}|if a \{ true \} else \{ b \}|pub fn default\(\) -> Self"):
            found["4 order, choice, default by hand"].append((path, line, what))
        for line, what in lines(text, r"fn (?:wide|place|first|either|refuse|smaller|shorter|lower_of|higher_of)\("):
            found["4 conversions and order in functions of their own"].append((path, line, what))
        for line, name, head, _ in functions(text):
            names = set(re.findall(r"\b(\w+):", head))
            for group in (("has_map", "map"), ("x_has_map", "x_map"), ("y_has_map", "y_map"), ("starts", "ends"), ("figures", "present"), ("lowest", "lowest_present"), ("highest", "highest_present")):
                if set(group) <= names:
                    found["5 parameters that travel together"].append((path, line, f"{name}: {' '.join(group)}"))
        for line, what in lines(text, r"let mut \w+ = \[[^\]]*; \w+\]"):
            found["6 buffers with a length beside"].append((path, line, what))
        for line, what in lines(text, r"^\s*\d+(?:\.\.=\d+)? => .*|match kind|match word\(rec"):
            found["7 switches on a step"].append((path, line, what))
    found["2 twins"] = list(twins(files))
    return found


def main():
    args = [a for a in sys.argv[1:] if a != "-v"]
    root = args[0] if args else os.path.join(os.path.dirname(os.path.abspath(__file__)), "..")
    found = places(root)
    for point in sorted(found):
        print(f"{point}: {len(found[point])}")
        if "-v" in sys.argv[1:]:
            for path, line, what in found[point]:
                print(f"    {path}:{line}: {what}")
    proofs = answers = count = 0
    for folder, _, names in os.walk(os.path.join(root, "crates")):
        if "/proofs" in folder and "/out" not in folder:
            for name in names:
                if name.endswith(".antt"):
                    count += 1
                    answers += name == "Answers.antt"
                    with open(os.path.join(folder, name), encoding="utf-8") as file:
                        proofs += len(file.read().splitlines())
    print(f"8 proofs: {count} files, {answers} of answers, {proofs} lines")


main()
