#!/usr/bin/env python3
"""Every name in backticks and every edit that the documents cite exists: a renamed definition takes its citations along.

Usage: names.py [DOCUMENT ...], in the repository; without arguments the documents below. Exit 1 with what is not found.
The forms that the documents use, and where each is looked up:

    `crate File`, `crate File.name`, `.. .field`   specs/File.antt of that crate, the definition there, its field or constructor
    `File.name`, `Record.field`                    the same in any crate
    `a::b`                                         b in the module, type or crate a, in src/ or in Rust
    `crate` `name`, `crate`'s `name`               in that crate, or in host, oracle or bench
    `name` (`crate` proofs/File), `name` of ..     a theorem in that file
    `_skew` after `moments_plan_var`               the name before with another end; 'that end in `_into`': some name does
    `moments_*_finalize`                           one name at least
    `crate/name`, and `name` after it in a list    an edit under must-fail/; any other path is a file or a folder
    `name`                                         what is defined so, in a crate or in Rust; a list of vectors; a crate
    any other text                                 stands so in a source, spaces apart, where .. is anything

And no cell of a table of docs/PROMISES.md is over 300 characters: a promise is one sentence beside what carries it.
"""
import fnmatch, glob, os, re, sys

DOCUMENTS = ["README.md"] + [f"docs/{name}.md" for name in ("PROMISES", "DECISIONS", "TRUST", "DIFFERENCES", "BENCHMARK", "ABI")]
# The Rust's own names: its text is not in the repository.
SOURCE = """KurtosisState::from_iter MomentWindow State alg_add_f64 alg_sum_f64 compute_var_weights create_validity det_offsets_center from_iter
    has_nulls moment.rs powf powi(2) powf(1.5) rolling/ rolling_apply_agg_window rolling_apply_weights sqrt""".split() + ["i + right_window"]
# Words of the languages, of the shell and of files that the collector reads, one parameter, and forms in which capitals stand for any name.
WORDS = """ensures requires u8 u32 usize libmoments.a Vec<Option<f64>> Option<f64> rt Cargo.toml MOMENTS_LIB_DIR ORACLE_SRC ORACLE_SEED shared/docs/src
    logic-built=trusted libraries-built=trusted NA nan inf 1e999 start,end label,start,end time,temperature has_map
    work.old work.new x.now x.old memset Result impl""".split()
WORDS += ["# refuses: FUNCTION", "# refuses-theorem: NAME", "Rattle.NAME.proofs.LAW", "var insert_one", 'moments = { path = "host" }']
WORDS += ["Clone, Copy", "rattle-kit-13f logic dac8208d650f15bf"]


def files(*patterns):
    return sorted(p for q in patterns for p in glob.glob(q, recursive=True) if "/target/" not in p)


def read(path):
    return open(path, encoding="utf-8").read()


# Of the logic: (crate, room, file) to its names, and a record or data type to its fields or constructors. In specs/ a name must be public.
logic, fields = {}, {}
LOGIC = re.compile(r"( *)(?:abbrev |unfoldable )*(pub )?(record |data )?([^\s(){}:]+)( :)?")
for path in files("crates/*/specs/**/*.antt", "crates/*/proofs/**/*.antt"):
    crate, room, stem = path.split("/")[1], path.split("/")[2], os.path.basename(path)[:-5]
    names, inside, depth = logic.setdefault((crate, room, stem), set()), None, 0
    for indent, public, kind, name, typed in (m.groups() for m in map(LOGIC.match, read(path).split("\n")) if m):
        if len(indent) <= depth:
            inside = None
        if inside and typed:
            fields[inside].add(name)
        if public or typed and (inside or room == "proofs"):
            names.add(name)
        if kind:
            inside, depth = name, len(indent)
            fields.setdefault(name, set())

# Of the code: a crate, or a folder in Rust, to its names, alone and behind the module, type or crate that they stand in.
SEEN = r'^( *)(?:pub(?:\([^)]*\))? )?'
CODE = re.compile(SEEN + r'(?:const |unsafe |extern "C" )*(fn|struct|enum|const|mod|trait|type|impl)\b(?:<[^>]*>)? *(?:\w+ for )?(\w+)')
VARIANT = re.compile(r"^(    )()([A-Z]\w*)(?:\(.*\)|),?$|^(    )()([A-Z]\w*) \{$")
code, text = {}, ""
for path in files("crates/*/src/**/*.rt", "host/**/*.rs", "oracle/**/*.rs", "bench/**/*.rs"):
    owner, stem = path.split("/")[path.startswith("crates/")], os.path.basename(path).split(".")[0]
    names, inside = code.setdefault(owner, {stem}), None
    names.add(stem)
    text += read(path)
    for line in read(path).split("\n"):
        if found := CODE.match(line) or inside and VARIANT.match(line):
            indent, kind, name = [g for g in found.groups() if g is not None]
            if not indent:
                inside = name if kind in ("impl", "enum", "trait") else None
            names |= {name, f"{stem}::{name}", f"{owner}::{name}", f"{inside}::{name}"}

crates = {p.split("/")[1] for p in glob.glob("crates/*/")}
edits = {f"{p.split('/')[1]}/{os.path.basename(p)[:-5]}" for p in files("crates/*/must-fail/*.edit")}
code["vectors"] |= {os.path.basename(p) for p in glob.glob("crates/vectors/data/*")}
bare = set().union(crates, code, *logic.values(), *code.values(), (stem for _, _, stem in logic))
text = re.sub(r"\s", "", text + "".join(map(read, files("crates/*/specs/**/*.antt", "crates/*/proofs/**/*.antt"))))


def in_crate(crate, name):
    return name in code.get(crate, ()) or any(name in logic[at] for at in logic if at[0] == crate)


def in_specs(crate, stem, name, field):
    found = [at for at in logic if at[1] == "specs" and at[2] == stem and crate in (None, at[0])]
    return any(not name or name in logic[at] and (not field or field in fields.get(name, ())) for at in found)


def known(name, before, words):
    """Whether a name that is no edit exists: `before` is the last whole name, `words` what stands between."""
    if name in SOURCE or name in WORDS or re.match(r"(rt|cargo|bench) ", name):
        return True
    if found := re.fullmatch(r"(\w+) ([A-Z]\w*)(?:\.([\w◌-]+))?(?:\.([\w-]+))?", name):
        return in_specs(*found.groups())
    if re.fullmatch(r"_\w*[^\W_]", name):
        ends = [name] if words.endswith(" end in ") else [before[:i] + name for i in range(1, len(before) + 1)]
        return any(fnmatch.filter(bare, end if end != name else "*" + name) for end in ends)
    if found := re.fullmatch(r"([\w.*-]+/[\w./*-]*)(?: .*)?", name):  # a path, or a script and its arguments
        return bool(files(found[1], found[1] + ".*", "crates/*/" + found[1]))
    if re.fullmatch(r"[\w*]+\.r[st]", name):
        return bool(files("crates/**/" + name, "host/**/" + name))
    if found := re.fullmatch(r"(\w+)\.([\w-]+)", name):
        return in_specs(None, found[1], found[2], None) or found[2] in fields.get(found[1], ())
    if re.fullmatch(r"[\w*][\w*:-]*", name):
        return bool(fnmatch.filter(bare, name))
    name = re.sub(r"^(--\w+) .*", r"\1", name).removeprefix("--")  # an option, with or without its value
    return re.search(re.escape(re.sub(r"\s", "", name)).replace(r"\.\.", ".*?"), text) is not None


bad, looked = [], 0
for document in sys.argv[1:] or DOCUMENTS:
    whole = re.sub(r"```.*?```", lambda m: "\n" * m[0].count("\n"), read(document), flags=re.S)
    before, end, edit_of = "", 0, None  # the last whole name; where the last one ended; the crate whose edits are being listed
    for found in re.finditer(r"`([^`\n]+)`", whole):
        name, words, looked = found[1], whole[end : found.start()].replace("\n", " "), looked + 1
        end, line = found.end(), whole[: found.start()].split("\n")
        # A list of edits goes on over commas, 'and', 'to' and remarks in brackets.
        if not re.fullmatch(r"( \([^()|]*\))?(,| and| to|, and) ", words):
            edit_of = None
        # In the table of wrong programs the first column names a crate and functions of it, the others edits; in brackets either.
        cells = line[-1].split("|")
        if len(cells) > 2 and whole[: found.start()].rsplit("\n## ", 1)[-1].startswith("Two wrong programs"):
            edit_of = cells[1].split("`")[1]
            if "(" in cells[-1] and in_crate(edit_of, name):
                continue
        if edit_of and "/" not in name:
            name = f"{edit_of}/{name}"
        if re.fullmatch(r"\w+/[\w*]+", name) and name.split("/")[0] in crates:
            edit_of = name.split("/")[0]
            ok = bool(fnmatch.filter(edits, name))
        elif words in (" ", "'s ") and before in code and re.fullmatch(r"[\w-]+", name):
            ok = in_crate(before, name)
        else:
            ok = known(name, before, words)
        if not ok:
            bad.append(f"{document}:{len(line)}: `{name}`")
        if re.fullmatch(r"[^\W_][\w*:]*", name):
            before = name
    for found in re.finditer(r"`([^`\s]+)[^`\n]*` (?:\(|of\s+)(?:`(\w+)` )?proofs/(\w+)", whole):
        if not any(found[1] in logic[at] for at in logic if at[1:] == ("proofs", found[3]) and found[2] in (None, at[0])):
            bad.append(f"{document}: {found[0]}")
    # What is named without backticks: files of specs/ and proofs/, those of the README's table of crates, and other files.
    for found in re.finditer(r"(?:`(\w+)` )?\b(specs|proofs)/([A-Z]\w*\*?)", whole):
        if not any(at[1] == found[2] and fnmatch.fnmatch(at[2], found[3]) and found[1] in (None, at[0]) for at in logic):
            bad.append(f"{document}: {found[0]}")
    for crate, stems in re.findall(r"^\| (\w+) \|.*\| ([A-Z][\w, ]*) \|$", whole, re.M):
        bad += [f"{document}: specs/{stem} of {crate}" for stem in stems.split(", ") if not in_specs(crate, stem, None, None)]
    for found in re.finditer(r"(?<![\w/`.])(?:docs|tools|host|oracle|bench|crates)/[\w./-]*\w", whole):
        if not glob.glob(found[0]):
            bad.append(f"{document}: {found[0]}")

LONGEST = 300
for at, line in enumerate(read("docs/PROMISES.md").split("\n"), 1):
    for cell in line.strip().strip("|").split(" | ") if line.startswith("|") else []:
        if len(cell) > LONGEST:
            bad.append(f"docs/PROMISES.md:{at}: a cell of {len(cell)} characters")

for name in bad:
    print(f"names.py: {name}")
print(f"{looked} names looked up, {len(bad)} not found or too long")
sys.exit(bool(bad) or looked == 0)
