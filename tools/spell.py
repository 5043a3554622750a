#!/usr/bin/env python3
"""Brings the repository's own definitions and lemmas to the spelling of the library.

usage: python3 tools/spell.py          at the top of the repository: rewrites the files in place
       python3 tools/spell.py --dry    prints what would be renamed, and what falls together

Run once, behind the toolchain's port.py. Names of definitions, lemmas, constructors, fields and locals go from
words-with-dashes to snake case, types to camel case. Names that come from elsewhere keep their spelling: those of the
library, those of goals and steps (which the checker makes), functions, strings, inputs and outputs.
"""

import os
import re
import sys

TOKEN = re.compile(r"[A-Za-z0-9_'ℕℤλφψτσΓΔκ]+(?:-[A-Za-z0-9_'ℕℤ<>=≤≡+*]+)+")
# Names that port.py has half turned, and a fact that was spelled as a value.
FIXED = {"Laid_out": "LaidOut", "Goes_on": "GoesOn", "settable": "SettableKind"}
OWN_PROOF = ("Answers.antt", "Invariants.antt", "Choices.antt", "Proof.antt")


def files(root):
    for top, dirs, names in os.walk(os.path.join(root, "crates")):
        dirs[:] = sorted(d for d in dirs if d not in ("out", "data"))
        for n in sorted(names):
            if n.endswith((".antt", ".rt", ".edit")):
                yield os.path.join(top, n)


def code_parts(path, text):
    """The pieces of a file, and whether names may be turned there: comments and strings may not."""
    if path.endswith(".antt"):
        pattern = re.compile(r"(--[^\n]*)|(\"(?:[^\"\\\n]|\\.)*\")")
    else:
        pattern = re.compile(r"(//[^\n]*)|(b?\"(?:[^\"\\]|\\.)*\"|b?'(?:[^'\\\n]|\\.)')")
    at = 0
    for m in pattern.finditer(text):
        yield text[at : m.start()], True
        yield m.group(0), False
        at = m.end()
    yield text[at:], True


def camel(name):
    return "".join(p[:1].upper() + p[1:] for p in name.split("-"))


def spelled(name):
    return camel(name) if name[:1].isupper() else name.replace("-", "_")


def crates(root):
    return {c for c in os.listdir(os.path.join(root, "crates"))}


USE = re.compile(r"^\s*(?:ghost |pub )*use ([^\s{;]+?)(?:\.\{([^}]*)\}| as (\S+))?;?\s*$", re.M)


def from_elsewhere(root, own):
    """Names with dashes that the files import from outside the repository, or that the checker makes."""
    outside, made = set(), set()
    for path in files(root):
        text = open(path, encoding="utf-8").read()
        for m in USE.finditer(text):
            head = m.group(1).split(".")
            mine = head[0] == "Rattle" and len(head) > 1 and head[1] in own
            goals = head[-1] in ("Goals", "Given")
            for item in (m.group(2) or "").split(","):
                first = item.strip().split(" as ")[0].strip()
                if "-" in first and (goals or not mine):
                    (made if goals else outside).add(first)
        if os.path.basename(path) in OWN_PROOF:
            made.update(re.findall(r"\bgoal\.([\w'-]+)", text))
            made.update(re.findall(r"^(?:abbrev )?(?:pub )?([\w'-]+) : (?:goal|given)\.", text, re.M))
    return outside, made


def own_fields(root):
    """Fields of the repository's records."""
    found = set()
    for path in files(root):
        if not path.endswith(".antt"):
            continue
        inside = False
        for line in open(path, encoding="utf-8"):
            if re.match(r"(pub )?(unfoldable )?record ", line.strip()) and line.rstrip().endswith("where"):
                inside, depth = True, len(line) - len(line.lstrip())
                continue
            if inside and line.strip() and not line.strip().startswith("--"):
                if len(line) - len(line.lstrip()) <= depth:
                    inside = False
                    continue
                m = re.match(r"\s+(?:pub )?([\w'-]+(?: [\w'-]+)*) :", line)
                if m:
                    found.update(m.group(1).split())
    return found


def turned(part, keep, fields, renamed):
    def one(m):
        name, start = m.group(0), m.start()
        if name in keep:
            return name
        before = part[:start]
        if before.endswith("."):
            head = re.search(r"([\w'-]+)(?:\.[\w'-]+)*\.$", before)
            of_module = head is not None and head.group(1)[:1].isupper()
            if not of_module and name not in fields:
                return name
        new = spelled(name)
        renamed.setdefault(new, set()).add(name)
        return new

    return TOKEN.sub(one, part)


def in_ticks(text, names):
    """Names of definitions in the backticks of a comment or a page."""
    return re.sub(r"`([^`\n]+)`", lambda m: "`" + TOKEN.sub(lambda t: names.get(t.group(0), t.group(0)), m.group(1)) + "`", text)


def main():
    root, dry = os.getcwd(), "--dry" in sys.argv[1:]
    own = crates(root)
    outside, made = from_elsewhere(root, own)
    fields = own_fields(root)
    renamed, plain, new_texts = {}, set(), {}
    for path in files(root):
        text = open(path, encoding="utf-8").read()
        if path.endswith(".edit") and "file: specs/" not in text and "file: proofs/" not in text:
            continue
        out = []
        for part, code in code_parts(path, text):
            if code:
                plain.update(re.findall(r"[A-Za-z_][\w']*", TOKEN.sub(" ", part)))
                part = turned(part, outside | made, fields, renamed)
                for old, new in FIXED.items():
                    part = re.sub(rf"(?<![\w'-]){old}(?![\w'-])", new, part)
            out.append(part)
        new_texts[path] = out
    names = {old: new for new, olds in renamed.items() for old in olds}
    for new, olds in sorted(renamed.items()):
        if len(olds) > 1 or new in plain:
            print("falls together:", new, sorted(olds), "and a plain name" if new in plain else "")
    if dry:
        print("made:", sorted(made))
        print("outside:", sorted(outside))
        print(len(renamed), "names")
        for new, olds in sorted(renamed.items()):
            print(sorted(olds)[0], new)
        return
    for path, parts in new_texts.items():
        text = "".join(in_ticks(p, names) if i % 2 else p for i, p in enumerate(parts))
        with open(path, "w", encoding="utf-8") as f:
            f.write(text)
    pages = [os.path.join(root, "README.md")] + [os.path.join(root, "docs", p) for p in sorted(os.listdir(os.path.join(root, "docs")))]
    for path in pages:
        if path.endswith(".md") and not os.path.basename(path).startswith("PORT"):
            text = open(path, encoding="utf-8").read()
            with open(path, "w", encoding="utf-8") as f:
                f.write(in_ticks(text, names))
    print(len(renamed), "names turned")


if __name__ == "__main__":
    main()
