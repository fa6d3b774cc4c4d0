#!/usr/bin/env python3
"""Reads README.md, CONTRIBUTING.md and docs/: each name in code quotes has to be a word of the crates, each link has
to lead to a file, and a link whose text is a name in code quotes to a file that declares it. Takes seconds."""
import os
import re
import sys

top = os.path.join(os.path.dirname(os.path.abspath(__file__)), "..", "..")
placeholders = set(open(os.path.join(top, "tests/pages/placeholders")).read().split())


def files(folder, endings):
    for path, folders, names in os.walk(os.path.join(top, folder)):
        folders[:] = [f for f in folders if f not in ("out", ".git")]
        for name in names:
            if name.endswith(endings):
                yield os.path.join(path, name)


words = set()
for file in files("crates", (".rt", ".antt", ".edit")):
    words.update(re.findall(r"[\w'-]+", open(file, encoding="utf-8").read()))
    words.update(re.findall(r"\w+", os.path.relpath(file, top)))
for folder in ("examples", "tests", "docs", "include", ".ci"):
    for file in files(folder, ""):
        words.update(re.findall(r"[\w'-]+", os.path.relpath(file, top)))
        words.update(re.findall(r"\w+", os.path.relpath(file, top)))

crates = os.listdir(os.path.join(top, "crates"))
pages = [os.path.join(top, n) for n in ("README.md", "CONTRIBUTING.md")] + list(files("docs", (".md",)))
faults = 0


def fault(page, text):
    global faults
    faults += 1
    print(f"{os.path.relpath(page, top)}: {text}")


for page in pages:
    text = re.sub(r"^(?:    |\t)[^\n]*$", "", open(page, encoding="utf-8").read(), flags=re.M)
    text = re.sub(r"```.*?```", "", text, flags=re.S)
    for quoted in re.findall(r"`([^`\n]+)`", text):
        for name in re.findall(r"[A-Za-z_][\w'-]*", quoted):
            is_name = "_" in name.strip("_") or re.search(r"[a-z][A-Z]", name)
            if is_name and name not in words and name not in placeholders:
                fault(page, f"no `{name}` in the crates")
    for path in re.findall(r"\b(?:specs|src|proofs)/[\w/]+\.(?:antt|rt)", text):
        if not any(os.path.exists(os.path.join(top, "crates", c, path)) for c in crates):
            fault(page, f"no crate has {path}")
    for label, target in re.findall(r"\[([^\]]+)\]\(([^)#]+)(?:#[^)]*)?\)", text):
        if target.startswith("http"):
            continue
        file = os.path.normpath(os.path.join(os.path.dirname(page), target))
        if not os.path.exists(file):
            fault(page, f"no file {target}")
        elif re.fullmatch(r"`[\w:]+`", label) and os.path.isfile(file):
            name = label.strip("`").split("::")[-1]
            source = open(file, encoding="utf-8").read()
            if file.endswith((".rt", ".antt")):
                found = len(re.findall(rf"\b(?:fn|struct|enum|trait|const|type)\s+{name}\b|^(?:\w+ )*pub (?:data |record )?{name}(?=[\s:(])", source, re.M))
                if found != 1:
                    fault(page, f"`{name}` is declared {found} times in {target}")
print(f"pages: {len(pages)} read, {faults} faults")
sys.exit(1 if faults else 0)
