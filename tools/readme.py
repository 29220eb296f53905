#!/usr/bin/env python3
"""The README's Rattle example compiles and gives what its comments say.

The blocks are put one after another into the main of a program in a throw-away repository over this one's crates, and `rt try` runs it,
interpreted and compiled. A comment `// number 0, figures 2.0, 2.0, 0.0: ..` becomes a check of each value that it names, and
`let figure = ..; // Figure::Present(2.0)` of the figure. Usage: readme.py, in the repository. Exit 1 where it fails.
"""
import os, re, shutil, subprocess, sys, tempfile

blocks = re.findall(r"^```rattle\n(.*?)^```", open("README.md", encoding="utf-8").read(), re.M | re.S)
body, checks = "", 0
for line in "".join(blocks).split("\n"):
    body += f"    {line}\n"
    if found := re.search(r"// (\w+ \d[\w ,.]*):", line):
        name = None
        for part in re.split(r", | ", found[1]):
            if not part[0].isdigit():
                name, place = part, 0
                continue
            what = f"{name}[{place}]" if re.search(rf"let mut {name} = \[", body) else name
            body, place, checks = body + f"    check::expect({what} == {part});\n", place + 1, checks + 1
    if found := re.search(r"let (\w+) = .*// Figure::Present\(([\d.]+)\)", line):
        body += f"    match {found[1]} {{ Figure::Present(v) => check::expect(v == {found[2]}), Figure::Missing => check::expect(false) }}\n"
        checks += 1
if not checks:
    sys.exit("readme.py: README.md has no Rattle example that says what it gives")

with tempfile.TemporaryDirectory() as room:
    os.makedirs(f"{room}/crates/readme/src")
    for crate in os.listdir("crates"):
        shutil.copytree(f"crates/{crate}", f"{room}/crates/{crate}", ignore=shutil.ignore_patterns("out", "data", "must-fail"))
    with open(f"{room}/crates.txt", "w") as out:
        out.write(open("crates.txt").read() + "readme: rolling plan moment trace check\n")
    with open(f"{room}/crates/readme/src/main.rt", "w") as out:
        out.write(f"use moment::{{Figure, VarState}};\n\nfn main() {{\n{body}}}\n")
    run = subprocess.run(["rt", "try"], cwd=f"{room}/crates/readme", capture_output=True, text=True)
    if run.returncode:
        print(open(f"{room}/crates/readme/src/main.rt").read(), run.stdout, run.stderr, "readme.py: the README's Rattle example fails", sep="\n")
        sys.exit(1)
print(f"README: {len(blocks)} blocks of Rattle run, {checks} values as they say")
