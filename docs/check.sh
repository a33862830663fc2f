#!/usr/bin/env bash
# Finds what the documents name and the repository doesn't have: files, links, functions, clauses, definitions. No part of the gate.
# It ends with status 1 where something is missing. It reads names in backquotes; texts with blanks in them are commands or formats, and
# are passed over. A row of a table whose last cell is a file of src/ and whose cells before it name a function (and clauses after a
# colon, or in a cell of their own) is looked up in that very file.
set -u
cd "$(dirname "$0")/.." || exit 2
command -v python3 > /dev/null || { echo "docs/check.sh needs python3" >&2; exit 2; }
exec python3 - <<'END'
import glob, os, re, sys

# Words that the documents use of the toolchain, of other programs, or as examples.
OTHER = set("""rt bash python3 sqlite3 xargs tail curl od ensures requires result ghost abbrev unfoldable sem T x f r a b P Q now old new entry exit
    _tests IfOk OnErr MatchResult MatchOption codes decimal Some None Ok Err record let alloc Global httparse csv sqlite matchit serde_json http hex
    atomic_table rand_chacha sqlite_items main PATH RETURNING""".split())
documents = ["README.md", "SECURITY.md", "CONTRIBUTING.md", "bench/README.md"] + sorted(glob.glob("docs/*.md") + glob.glob("docs/crates/*.md"))
sources = [f for kind in ("src/*.rt", "specs/*.antt", "proofs/*.antt", "proofs/**/*.antt", "must-fail/*.edit")
           for f in glob.glob("crates/*/" + kind, recursive=True)]

def code(path):
    text = open(path, encoding="utf-8").read()
    return re.sub(r"(?m)//.*$" if path.endswith(".rt") else r"(?m)(^|\s)--.*$", "", text)

words, texts = set(), {}
for path in sources:
    texts[path] = code(path)
    words |= set(re.findall(r"[A-Za-z_][A-Za-z0-9_]*", texts[path]))
    words.add(os.path.basename(path).rsplit(".", 1)[0])
for path in glob.glob("demo/*") + glob.glob("bench/*") + glob.glob("crates/*/args") + glob.glob("crates/*/data/**/*", recursive=True):
    words |= {os.path.basename(path), os.path.basename(path).rsplit(".", 1)[0]}
crates = {os.path.basename(c) for c in glob.glob("crates/*")}
words |= crates | OTHER

def slug(heading):
    heading = re.sub(r"[`*]", "", heading.strip().lower())
    return re.sub(r"[^\w\- ]", "", heading).replace(" ", "-")

headings = {}
def anchors(path):
    if path not in headings:
        body = re.sub(r"(?s)```.*?```", "", open(path, encoding="utf-8").read())
        headings[path] = {slug(h) for h in re.findall(r"(?m)^#+ (.*)$", body)}
    return headings[path]

missing = 0
def say(path, number, what):
    global missing
    missing += 1
    print(f"{path}:{number}: {what}")

# A path is taken from the top, or from a crate that the lines around or the heading name; where none is named, from any crate.
def is_there(name, near, folder):
    inside = [f"crates/{c}/" for c in near] or ["crates/*/"]
    places = ["", "crates/", folder + "/", "docs/", "demo/"] + inside + [i + "src/" for i in inside]
    if name in ("specs/", "src/", "proofs/", "must-fail/", "specs/*.antt", "must-fail/NAME.edit"):
        return True
    return any(glob.glob(p + name) or glob.glob(p + name + ".antt") for p in places)

PATH = re.compile(r"^[\w.*\-]+(/[\w.*\-]+)*/?$")
NAME = re.compile(r"^&?[A-Za-z_]\w*((::|\.)[A-Za-z_]\w*)*(\(\))?$")
FILES = (".rt", ".antt", ".md", ".sh", ".edit", ".schema", ".key", ".db", ".sql", ".csv", ".txt")
for path in documents:
    if not os.path.exists(path):
        say(path, 0, "no such document")
        continue
    folder, fenced = os.path.dirname(path), False
    crate = None
    if path.startswith("docs/crates/"):
        crate = re.sub(r"-.*", "", os.path.basename(path)[:-3])
    last = ["", ""]
    for number, line in enumerate(open(path, encoding="utf-8"), 1):
        if line.startswith("```"):
            fenced = not fenced
        if fenced:
            continue
        if line.startswith("#") and not path.startswith("docs/crates/"):
            named = re.findall(r"\bpdn_\w+", line)
            crate = named[0] if named and named[0] in crates else crate
        for target in re.findall(r"\]\(([^)]+)\)", line):
            if "://" in target:
                continue
            file, _, anchor = target.partition("#")
            full = os.path.normpath(os.path.join(folder, file)) if file else path
            if not os.path.exists(full):
                say(path, number, f"link to {target}")
            elif anchor and full.endswith(".md") and anchor not in anchors(full):
                say(path, number, f"no heading for {target}")
        near = {c for c in re.findall(r"\bpdn\w*", " ".join(last) + line) if c in crates} | ({crate} if crate in crates else set())
        last = [last[1], line]
        cells = [c.strip() for c in line.strip().strip("|").split("|")] if line.startswith("|") else []
        for text in re.findall(r"`([^`]+)`", line):
            if "/" in text and PATH.match(text):
                if not is_there(text, near, folder) and "out" not in text.split("/"):
                    say(path, number, f"no file {text}")
            elif text.endswith(FILES) and PATH.match(text):
                if not is_there(text, near, folder) and text not in words and not re.match(r"^[ab]\.db|desk\.db|tape\.key|q\.sql", text):
                    say(path, number, f"no file {text}")
            elif NAME.match(text) and not re.fullmatch(r"[0-9a-f]{16}", text):
                for part in re.split(r"::|\.", text.rstrip("()").lstrip("&")):
                    if part not in words and not part.startswith(("refused", "fault")):
                        say(path, number, f"no name {text}")
                        break
        # a row that says where: function (and clauses), file
        if len(cells) >= 3 and re.fullmatch(r"`crates/\w+/src/\w+\.rt`", cells[-1]):
            file = cells[-1].strip("`")
            source = texts.get(file, "")
            calls = cells[-2] if len(cells) == 3 else cells[1]
            given = cells[2] if len(cells) > 3 else ""
            before, _, after = re.sub("`:", "`@", calls, count=1).partition("@") if len(cells) == 3 else (calls, "", "")
            for call in re.findall(r"`([^`]+)`", before):
                name = call.split("::")[-1]
                if not re.search(rf"\b(fn|struct|trait|enum|const) {name}\b", source):
                    say(path, number, f"no {name} in {file}")
            for clause in re.findall(r"`([^`]+)`", after + given):
                if not re.search(rf"ensures\*? {clause}\b|ghost {clause}\b|requires {clause}\b", source):
                    say(path, number, f"no clause {clause} in {file}")
print(f"{missing} missing" if missing else "all names in the documents are there")
sys.exit(1 if missing else 0)
END
