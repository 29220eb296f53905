#!/usr/bin/env python3
"""Tries every must-fail edit by `rt check` in a copy of the repository, and reads the log.

`rt ci` and `rt must-fail` say of an edit only that it is refused, and the first error of its check; they keep no log. So each edit
is tried here once more. The log lies at target/must-fail/CRATE/EDIT.log, and stands until the edit, its crate or a crate below changes.

An edit may hold several wrong programs, one for each line `# refuses: FUNCTION` in it. Each of these functions must be
refused for itself, because a fact of its own proof fails: not only because a function that it calls is not proved, and not
because the edit made its proof file unfit for the code. A function whose proof Rattle only begins once what it calls is proved is tried
again with its own pairs of the edit alone (EDIT.2.log, ..); so is one whose answers name what the edit took away (a goal is named
after the test that it stands behind), without these answers: then the log must show values at which a goal of it is false.

An edit of statements names the theorems that it breaks, one in each line `# refuses-theorem: NAME`; in a crate without code
every edit must. The log must hold an error of that theorem itself. 'Was not checked', which is said of all that rests on a
broken theorem, is none, nor is an error by which the proof only does not have the shape of its statement. Of one theorem at
least the log must show the fact that fails, worked out: a test that computes to false, another value, a number out of its
bounds. An edit whose text cannot be read, or after which a proof names what is not there, is a fault whatever else its
log holds.

Usage: edits.py [-j N] [CRATE ...], in the repository, best after `rt ci`; N edits at a time (1). Exit 1 where one is not refused so.
"""
import glob, hashlib, os, queue, re, shutil, subprocess, sys, tempfile
from concurrent.futures import ThreadPoolExecutor

PARTS = ("src", "specs", "proofs")
# An error or a note; where the file as a whole is meant there is no place.
HEAD = re.compile(r"(\S+\.(?:antt|rt)):(?:\d+:\d+:)? (error|note)(?:\[[\w-]+\])?: ?(.*)")
# What rests on a declaration that is refused is not checked.
RESTS = re.compile(r"which (was|were) (rejected|not admitted), (was|were) not checked|was not admitted")
# A name that is not there, a field that is not there: the proofs are not checked against the edited statement.
UNREAD = re.compile(r"is not in scope(?! here, so)|can be named from here|is not a field of record|missing field\(s\) of|has no field `")
# A proof whose shape does not fit: arguments, tuples, functions, constructors, clauses.
SHAPE = re.compile(
    r"this λ is checked against|which is not a (function|data|`×`)|a tuple is checked against|this tuple has|projects from a"
    r"|is a declared record, built with|is not a constructor of|takes \d+ explicit argument|is given \d+ argument"
    r"|has a constructor pattern at|constructor pattern .* whose type is not|the clauses? writes? \d+ patterns|no clause covers|write the clause"
)
# What the log shows where the fact that fails is worked out.
WORKED = re.compile(r"computed as far as they go, the two|the goal does not follow|does not hold")


def read(path):
    with open(path, encoding="utf-8") as it:
        return it.read()


def crates_below(crate):
    rows = [line.partition("#")[0].partition(":") for line in read("crates.txt").split("\n")]
    uses = {row[0].split()[0]: row[2].split() for row in rows if row[0].strip()}
    found, left = [], [crate]
    while left:
        it = left.pop()
        if it in uses and it not in found:
            found.append(it)
            left += uses[it]
    return found


def sum_of(crate):
    """Of all that the check of a crate reads."""
    total = hashlib.sha256(subprocess.run(["rt", "version"], stdout=subprocess.PIPE).stdout)
    for name in sorted(crates_below(crate)):
        for part in PARTS:
            for path in sorted(glob.glob(f"crates/{name}/{part}/**/*.*", recursive=True)):
                if os.path.isfile(path):
                    total.update(f"{path}\n{read(path)}".encode())
    return total


def in_name(type_):
    """A type or trait as the prover writes it in the name of an `impl`: `(f64, f64)` is Tuple2F64F64, `[f64; 3]` ArrayF643."""
    it = re.sub(r"'\w+", "", type_)
    it = re.sub(r"\(([^()]*)\)", lambda m: f"Tuple{m[1].count(',') + 1} {m[1]}", it)
    it = re.sub(r"\[([^];]*);", r"Array \1 ", it)
    return "".join(word[0].upper() + word[1:] for word in re.findall(r"\w+", it))


def place_of(path, text, at):
    """The names around a place of a source file: its modules, its `impl` and the type of it, its function; with no function none."""
    names = [n for n in path.removeprefix("src/").removesuffix(".rt").split("/") if n not in ("lib", "main", "mod")]
    lines, around = text[:at].split("\n"), {}
    for line in lines[:-1] + [text.split("\n")[len(lines) - 1]]:
        indent = len(line) - len(line.lstrip())
        if line.strip() and not (line.strip()[0] in ")]" or re.match(r"where\b|[{]", line.strip())):  # a signature may take several lines
            around = {depth: it for depth, it in around.items() if depth < indent or line.strip() == "}" and depth == indent}
        if line.strip() == "}":
            around.pop(indent, None)
        kept = re.match(r"\s*impl\b(?:<[^{]*?>)? (?:(.*) for )?([^{]+)", line)
        function = re.match(r'\s*(?:pub(?:\([^)]*\))? )?(?:const |unsafe |extern "C" )*fn (\w+)', line)
        if function:
            around[indent] = ["fn " + function[1]]
        elif kept:
            around[indent] = re.findall(r"^\w+", kept[2]) + [in_name(kept[2]) + in_name(kept[1] or "")]
    around = [it for depth in sorted(around) for it in around[depth]]
    return names + [it.removeprefix("fn ") for it in around] if any(it.startswith("fn ") for it in around) else []


def pairs_of(source, crate):
    """(file, old, new, the names around it) of each pair, and why the edit cannot be applied, if so."""
    pairs, path, old, texts = [], None, None, {}
    for line in source.split("\n"):
        if line.startswith("file: "):
            path = line[6:].strip()
        elif line.startswith("old: "):
            old = line[5:]
        elif line.startswith("new:"):
            if path not in texts:
                texts[path] = read(f"crates/{crate}/{path}")
            if texts[path].count(old) != 1:
                return pairs, f"not once in {path}: {old}"
            at, new = texts[path].index(old), line[4:].removeprefix(" ")
            pairs.append((path, old, new, place_of(path, texts[path], at + len(old) - len(old.lstrip()))))
            texts[path] = texts[path].replace(old, new)
    return pairs, None


def log_of(crate, pairs, sum_, to, without=()):
    """The log of `rt check` with these pairs, without the answers of these functions."""
    sum_.update(repr([[pair[:3] for pair in pairs], without]).encode())
    head = f"sum {sum_.hexdigest()}\n"
    if os.path.exists(to) and read(to).startswith(head):
        return read(to)
    room = rooms.get()
    try:
        if not os.path.isdir(f"{room}/crates/{crate}/out"):
            for name in crates_below(crate):
                if os.path.isdir(f"crates/{name}/out") and not os.path.isdir(f"{room}/crates/{name}/out"):
                    shutil.copytree(f"crates/{name}/out", f"{room}/crates/{name}/out", symlinks=True)
        changed = {}
        for path, old, new, _ in pairs:
            text = changed.get(path) or read(f"crates/{crate}/{path}")
            if text.count(old) != 1:  # a part of the edit, in which a pair rests on one that is left out
                return head + f"not once in {path}: {old}\n"
            changed[path] = text.replace(old, new)
        for path, text in changed.items():
            with open(f"{room}/crates/{crate}/{path}", "w", encoding="utf-8") as it:
                it.write(text)
        how = {"stdin": subprocess.DEVNULL, "stdout": subprocess.PIPE, "stderr": subprocess.STDOUT}
        gone = [p for p in glob.glob(f"crates/{crate}/proofs/**/*.antt", recursive=True) if any(answers_of(it).search(p) for it in without)]
        for path in gone:
            os.remove(f"{room}/{path}")
        said = subprocess.run(["rt", "check"], cwd=f"{room}/crates/{crate}", **how).stdout.decode(errors="replace")
        for path in [f"crates/{crate}/{it}" for it in changed] + gone:
            shutil.copyfile(path, f"{room}/{path}")
    finally:
        rooms.put(room)
    os.makedirs(os.path.dirname(to), exist_ok=True)
    with open(to, "w", encoding="utf-8") as it:
        it.write(head + said)
    return head + said


def errors_of(text):
    """(file, declaration, message) of each error, the lines under it among the message."""
    found, open_ = [], None
    for line in text.split("\n"):
        head = HEAD.match(line)
        if head and head[2] == "error":
            named = re.match(r"`([^`]+)`: ", head[3])
            open_ = [head[1].removeprefix("./"), named[1] if named else None, head[3]]
            found.append(open_)
        elif line.startswith(" ") and open_:
            open_[2] += "\n" + line
        else:
            open_ = None
    return [e for e in found if not RESTS.search(e[2])]


def worked_out(message):
    if re.search(r"but this has type `(Prim\.)?Unit\b", message):  # a list of tests: it computes to false, and not only to no end
        return bool(re.search(r"`(Prim\.)?⊥` \(expected\)|expected type `(Prim\.)?⊥`", message)) or "computing it took more than" in message
    return bool(WORKED.search(message))


def without_code(crate):
    sources = glob.glob(f"crates/{crate}/src/**/*.rt", recursive=True)
    return not any(re.search(r"^[^/\n]*\bfn \w", read(p), re.M) for p in sources)


def answers_of(name, files="Answers|Proof"):
    return re.compile(rf"(?:^|/)\+?{re.escape(name.replace('::', '/'))}/(?:{files})\.antt$")


def own_refusal(name, text, errors, without=()):
    """Whether a fact of the function's own proof fails: an error in its files, or a goal for which the search finds no proof."""
    if name in without:
        return bool(re.search(rf"^note: `[^`]+` of \S*\b{re.escape(name.replace('::', '/'))}/Answers\.antt may be false: the known facts allow", text, re.M))
    files = answers_of(name, "Answers|Invariants|Proof")
    own = any(files.search(path) and not UNREAD.search(message) for path, _, message in errors)
    return own or bool(re.search(rf"^fn \S*\b{re.escape(name)}: no proof:.*`search` did not prove", text, re.M))


def waits(name, text):
    """Whether the function's proof was not begun, since what it calls is not proved."""
    return bool(re.search(rf"^fn \S*\b{re.escape(name)}: no(?: proof:|t proved;) it calls", text, re.M))


def pairs_in(name, pairs):
    """The pairs that stand in a function; where there is none, those that stand in no function of the source (a constant)."""
    parts = name.split("::")
    own = [pair for pair in pairs if pair[3][-1:] == parts[-1:] and set(parts) <= set(pair[3])]
    return own or [pair for pair in pairs if pair[0].startswith("src/") and not pair[3]]


def unfit(errors, text, names):
    """Why the log of an edit says nothing of its facts, if so; of what the answers of these functions name it is not said here."""
    if not re.search(r"^logic=not-proved", text, re.M):
        return "no verdict, or still proved: " + (text.strip().split("\n") or [""])[-1][:160]
    for path, named, message in errors:
        line = message.split("\n")[0][:160]
        if path.endswith(".rt") or path.startswith("specs/") or named is None and not path.startswith("src/"):
            return f"unfit: {path}: {line}"
        if UNREAD.search(message) and not any(answers_of(name).search(path) for name in names):
            return f"a proof file is unfit for the edited text: {path}: {line}"
    return None


def judge(edit):
    """The faults of an edit, the wrong programs and the theorems that are refused for themselves, and those with what fails worked out."""
    crate, label = edit.split("/")[1], os.path.basename(edit)[:-5]
    say, source, log = f"{crate}/{label}: ", read(edit), f"target/must-fail/{crate}/{label}"
    pairs, why = pairs_of(source, crate)
    if why or not pairs:
        return [say + f"BAD EDIT: {why or 'no pair'}"], 0, 0, 0
    text = log_of(crate, pairs, sums[crate].copy(), f"{log}.log")
    errors = errors_of(text)
    left, number, without = re.findall(r"^# refuses: (\S+)$", source, re.M), 1, ()
    why = unfit(errors, text, left)
    faults, shown, theorems, worked = [say + why] if why else [], 0, 0, 0
    while left:
        torn = {name for name in left for path, _, message in errors if UNREAD.search(message) and answers_of(name).search(path)}
        open_ = [name for name in left if name in torn - set(without) or not own_refusal(name, text, errors, without)]
        shown += len(left) - len(open_)
        later = [name for name in open_ if name in torn and name not in without or waits(name, text)]
        faults += [say + f"{name} is not refused for itself" + " without its answers, which name what the edit took away" * (name in without) for name in open_ if name not in later]
        again = [pair for pair in pairs if any(pair in pairs_in(name, pairs) for name in later)]
        if not again or number > 1 and later == left and set(without) >= torn:
            faults += [say + f"{name} is not refused for itself: its proof waits for what it calls" for name in later]
            break
        left, number, without = later, number + 1, tuple(sorted({*without, *torn}))
        text = log_of(crate, again, sums[crate].copy(), f"{log}.{number}.log", without)
        errors = errors_of(text)
        why = unfit(errors, text, left)
        faults += [say + f"{why} (of {', '.join(left)} alone)"] if why else []
    names = re.findall(r"^# refuses-theorem: (\S+)$", source, re.M)
    if not names and without_code(crate) and all(pair[0].startswith("specs/") for pair in pairs):
        faults.append(say + "it names no theorem")
    if names:
        errors = errors_of(read(f"{log}.log"))
        for name in names:
            own = [m for p, n, m in errors if n == name and p.startswith("proofs/")]
            fact = [m for m in own if not SHAPE.search(m) and not UNREAD.search(m)]
            theorems += bool(fact)
            if not own:
                faults.append(say + f"theorem {name} is not refused for itself")
            elif not fact:
                faults.append(say + f"theorem {name} only has a proof of another shape: {own[0].split(chr(10))[0][:160]}")
            worked += any(map(worked_out, fact))
        if not worked:
            faults.append(say + "the log shows no fact that fails, worked out")
    return faults, shown, theorems, worked


words, at_once = sys.argv[1:], 1
if words[:1] == ["-j"]:
    at_once, words = int(words[1]), words[2:]
edits = [e for e in sorted(glob.glob("crates/*/must-fail/*.edit")) if not words or e.split("/")[1] in words]
sums = {crate: sum_of(crate) for crate in {e.split("/")[1] for e in edits}}
rooms = queue.Queue()
with tempfile.TemporaryDirectory(prefix="edits-") as top:
    for number in range(at_once):
        room = f"{top}/{number}"
        shutil.copytree("crates", f"{room}/crates", symlinks=True, ignore=shutil.ignore_patterns("out", "must-fail"))
        for name in ("crates.txt", "HANDLES"):
            if os.path.exists(name):
                shutil.copy(name, room)
        rooms.put(room)
    bad = shown = theorems = worked = 0
    with ThreadPoolExecutor(at_once) as pool:
        for faults, *counts in pool.map(judge, edits):
            for line in faults:
                print(line, flush=True)
            bad, shown, theorems, worked = bad + len(faults), shown + counts[0], theorems + counts[1], worked + counts[2]
print(f"{shown} wrong programs refused for themselves, {theorems} theorems refused, {worked} with what fails worked out, {bad} faults")
sys.exit(bad > 0)
