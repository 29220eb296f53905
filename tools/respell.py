#!/usr/bin/env python3
"""After port.py, once: brings the repository's own definitions, fields and lemmas to the spelling of today's Rattle.

Words are in snake case (`wrongMap` becomes `wrong_map`, `map-wrong` becomes `map_wrong`), a name that was put before another by a middle
dot is joined to it by a dash (`VarState-insert_one`). A lemma that would fall together with another name gets `_lem`. Types, functions of
src/, exported names, strings of the hosts, names of the library and those that the check generates stay. Usage: respell.py, at the top.
"""
import collections, glob, os, re, sys

KIT = sys.argv[1] if len(sys.argv) > 1 else os.environ.get("RATTLE_KIT", "/opt/rattle/rattle")
TOKEN = re.compile(r"(?<![\w'])[A-Za-z_◌][\w'◌]*(?:[-·][\w'◌]+)*")
DECLARED = re.compile(r"(?:(?:abbrev|unfoldable|pub|data|record|irreducible) )*([^\s:(){}=]+)(?: \([^)]*\)| \{[^}]*\})* :(?: |$)")
FIELD = re.compile(r"  (?:pub )?([^\s:(){}=|λ]+) :(?: |$)")
# The lemmas whose new name a definition has already, where both stand in one file.
TOGETHER = [("promises/proofs/Maps.antt", "fixed_number"), ("promises/proofs/DemandThree.antt", "not_negative")]


def snake(word):
    if not re.match(r"[a-z◌]", word):
        return word
    return re.sub(r"([a-z0-9])([A-Z])", lambda m: m[1] + "_" + m[2].lower(), word)


def camel(token):
    return re.sub(r"[^-·]+", lambda m: snake(m[0]), token).replace("·", "-")


def files():
    for ending in ("rt", "antt", "edit"):
        for path in glob.glob(f"crates/**/*.{ending}", recursive=True):
            if "/out/" not in path:
                yield path


def text_of(path):
    with open(path, encoding="utf-8") as f:
        return f.read()


def own_dashes():
    """Own names with a dash that are declared in specs/ or in a file of lemmas: at the margin, and as a field of a record."""
    found, fields = set(), set()
    for path in glob.glob("crates/*/specs/**/*.antt", recursive=True) + glob.glob("crates/*/proofs/*.antt"):
        record = False
        for line in text_of(path).split("\n"):
            if line[:1].strip() and not line.startswith("--"):
                record = bool(re.match(r"(pub )?(record|data) ", line))
                m = DECLARED.match(line)
                if m and "-" in m[1]:
                    found.add(m[1])
            elif record:
                m = FIELD.match(line)
                if m and "-" in m[1]:
                    fields.add(m[1])
    return found, fields


def main():
    library = set()
    for path in glob.glob(KIT + "/**/*.antt", recursive=True):
        library.update(TOKEN.findall(text_of(path)))
    for name, word in TOGETHER:
        path = "crates/" + name
        if os.path.exists(path):
            text = text_of(path)
            with open(path, "w", encoding="utf-8") as f:
                f.write(re.sub(rf"(?<![\w'-]){word}(?![\w'-])", word + "_lem", text))
    texts = {path: text_of(path) for path in files()}
    used = collections.Counter()
    for text in texts.values():
        used.update(TOKEN.findall(text))
    turned = {t: camel(t) for t in used if camel(t) != t}
    taken = set(used) | set(turned.values())
    functions = set(re.findall(r"\bfn (\w+)", "\n".join(t for p, t in texts.items() if p.endswith(".rt"))))
    margin, fields = own_dashes()
    for name in sorted(margin | fields):
        if name in library:
            continue
        to = camel(name).replace("-", "_")
        if name not in margin:  # a field is read through its record
            turned[name] = to
            continue
        if to in taken or to in functions or to in library:
            to += "_lem"
        if to in taken:
            print(f"left: {name}, since {to} is taken")
            continue
        turned[name] = to
        taken.add(to)
    back = collections.defaultdict(list)
    for a, b in turned.items():
        if a not in fields:
            back[b].append(a)
    for b, names in back.items():
        if len(names) > 1:
            print(f"fall together: {names} as {b}")
    both = {n: n.replace("-", "_") for n in margin & fields if turned.get(n, "").endswith("_lem")}

    def word(m):
        """A lemma's name that is a field's too has `_lem` only where it is the lemma's."""
        before, after = m.string[: m.start()], m.string[m.end() :]
        if m[0] in both and (before.endswith(".") or re.search(r"(^ +(pub )?|[;{] *)$", before) and re.match(r" [:=]", after)):
            return both[m[0]]
        return turned.get(m[0], m[0])

    def turn(text, plain=True):
        """In prose a name with a dash counts only between backticks: elsewhere it is two words."""
        if plain:
            return TOKEN.sub(word, text)
        text = re.sub("`[^`\n]*`", lambda m: turn(m[0]), text)
        return TOKEN.sub(lambda m: m[0] if "-" in m[0] else turned.get(m[0], m[0]), text)

    comment = {"rt": "//", "antt": "-- ", "edit": "# "}
    pages = ["README.md"] + [p for p in glob.glob("docs/*.md") if not p.endswith("CHANGES.md")]
    for path in list(texts) + pages:
        text = texts.get(path) or text_of(path)
        mark = comment.get(path.rsplit(".", 1)[1])
        lines = []
        for line in text.split("\n"):
            code, seen, said = line.partition(mark) if mark else ("", "", line)
            names = path.endswith(".edit") and re.match(r" ?refuses", said)
            lines.append(turn(code) + seen + turn(said, bool(names)))
        new = "\n".join(lines)
        if new != text:
            with open(path, "w", encoding="utf-8") as f:
                f.write(new)
    print(f"{len(turned)} names turned")


main()
