#!/usr/bin/env python3
"""Brings the repository's own definitions and lemmas to today's spelling, once, right after the toolchain's port script.

Run at the top of the repository. A name with dashes that a file of specs/ or a file of lemmas in proofs/ binds gets underscores; a fact (a definition
in Type 0) gets upper camel case. A name of a library, or one that Rattle makes in a function's goals, stays. Code, strings and outputs stay too.
In an edit of must-fail/ and between backticks in a page the names follow. It says which names fall together.
"""

import glob
import os
import re

DASHED = re.compile(r"[A-Za-z][A-Za-z0-9₀-₉_']*(?:-[A-Za-z0-9₀-₉_']+)+\Z")
WORD = re.compile(r"[^\s(){};,.@«»⟦⟧]+")

# Facts whose old name has no capital.
FACTS = {"queue-bound": "QueueBound", "roll-bound": "RollBound"}

# Lemmas of `kinds` that would have the name of the law they prove.
LAWS = {
    "read-stays": "read_leaves_state", "read_stays": "read_leaves_state", "no-stays": "no_leaves_state", "undo-restores": "undo_leads_back",
}


def turned(name):
    if name in FACTS:
        return FACTS[name]
    if name in LAWS:
        return LAWS[name]
    if name[0].isupper():
        return "".join(p[0].upper() + p[1:] for p in name.split("-"))
    return name.replace("-", "_")


def crates():
    return sorted(d for d in os.listdir("crates") if os.path.isdir("crates/" + d))


def own(path):
    """Whether a `use` path names a file that is written here, and not one that Rattle makes."""
    p = path.replace("·", ".").split(".")
    return len(p) > 3 and p[0] == "Rattle" and p[1] in crates() and p[2] in ("specs", "proofs") and p[3] != "declared" and p[-1] not in ("Goals", "Given", "Tie")


def imports(text):
    for m in re.finditer(r"^\s*(?:ghost )?use ([^\s{;]+?)\.?(?:\{([^}]*)\})?(?: as \S+)?;?$", text, re.M):
        yield m[1], [n.strip().split(" as ")[0] for n in (m[2] or "").split(",") if n.strip()]


def is_lemma_file(text):
    """Whether a file of antt is not one that answers a function's goals."""
    return not re.search(r"\.(Goals|Given|Needs) as |\.(Goals|Given|Needs)\.", text)


def words(text):
    return set(WORD.findall(re.sub(r"--.*", "", text)))


def local_names(path, text):
    """The names to turn in one file of antt."""
    foreign = {n for p, ns in imports(text) if not own(p) for n in ns}
    mine = {n for p, ns in imports(text) if own(p) for n in ns}
    if is_lemma_file(text):
        names = {w for w in words(text) if DASHED.match(w)} - foreign
    else:
        heads = set(re.findall(r"^(?:pub )?(\S+) : (?!goal\.)", text, re.M))
        names = {w for w in mine | heads if DASHED.match(w)} - foreign
    if path.startswith("crates/kinds/"):
        names |= {n for n in LAWS if n in mine or (is_lemma_file(text) and re.search(rf"^pub {n} :", text, re.M))}
    return names


def replaced(text, table):
    return WORD.sub(lambda m: table.get(m[0], m[0]), text)


def antt(path, text):
    table = {n: turned(n) for n in local_names(path, text)}
    out = []
    for line in text.split("\n"):
        row = re.match(r"-- \| (\S+)( *)\| ", line)
        if row and row[1] in table:
            new = table[row[1]]
            line = "-- | " + new + " " * max(1, len(row[1]) + len(row[2]) - len(new)) + line[row.end() - 2:]
        elif not line.lstrip().startswith("--"):
            line = replaced(line, table)
        else:
            line = re.sub(r"`[^`]*`", lambda m: "`" + replaced(m[0][1:-1], table) + "`", line)
        out.append(line)
    return "\n".join(out), table


def rust(text, known):
    mine = {n for p, ns in imports(text) if own(p) for n in ns}
    table = {n: turned(n) for n in mine if DASHED.match(n) and (n in known or n in LAWS)}
    lines = text.split("\n")
    return "\n".join(l if l.lstrip().startswith("//") else replaced(l, table) for l in lines)


def main():
    known, texts = {}, {}
    for path in sorted(glob.glob("crates/*/specs/**/*.antt", recursive=True) + glob.glob("crates/*/proofs/**/*.antt", recursive=True)):
        with open(path) as f:
            text = f.read()
        texts[path], table = antt(path, text)
        if is_lemma_file(text):
            known.update(table)
            was = set(words(text)) - set(table)
            for old, new in sorted(table.items()):
                if new in was or sum(1 for n in table.values() if n == new) > 1:
                    print(f"{path}: {old} falls together with {new}")
    for path in sorted(glob.glob("crates/*/src/**/*.rt", recursive=True)):
        with open(path) as f:
            texts[path] = rust(f.read(), known)
    for path in sorted(glob.glob("crates/*/must-fail/*.edit")):
        with open(path) as f:
            text = f.read()
        texts[path] = re.sub(r"^(old|new): .*$", lambda m: replaced(m[0], {k: v for k, v in known.items() if DASHED.match(k)}), text, flags=re.M)
    for path in sorted(glob.glob("docs/*.md") + ["README.md"]):
        if os.path.basename(path) == "PORT.md":
            continue
        with open(path) as f:
            text = f.read()
        spell = {k: v for k, v in known.items() if DASHED.match(k)}
        texts[path] = re.sub(r"`[^`\n]+`", lambda m: replaced(m[0].replace("`", " ` "), spell).replace(" ` ", "`"), text)
    count = 0
    for path, text in texts.items():
        with open(path) as f:
            if f.read() == text:
                continue
        with open(path, "w") as f:
            f.write(text)
        count += 1
    print(f"spelling: {len(known)} names, {count} files")


if __name__ == "__main__":
    main()
