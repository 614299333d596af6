#!/usr/bin/env python3
"""Spells the repository's own definitions and lemmas as today's Rattle does: words in snake case.

usage: python3 tools/respell.py        at the top, once, right after the kit's port.py

It turns names that a file of specs/ or proofs/ declares, wherever they are cited: in specs/, proofs/, src/ (clauses and
comments), must-fail/, tests/machines, README.md and docs/. Names of src/ stay, and so do names of the kit's library.
"""
import collections
import os
import re

NAME = r"[^\s(){}\[\].,;:λ→×«»`\"|]+"
WORD = re.compile(r"[^\s(){}\[\].,;:λ→×«»`\"|/]+")
DECLARED = re.compile(r"^ *(?:(?:pub|abbrev|unfoldable) )*((?:" + NAME + r" )+): ")
ALIAS = re.compile(r" as (" + NAME + r")$")
IMPORT = re.compile(r"^\s*(?:ghost )?(?:pub )?use (\S+?)\.\{(.*?)\}?;?$")

# Where the plain rule would make two names one, the lemma gets the ending that the kit's style gives it.
BY_HAND = {
    "getD-right": "get_or_right",
    "getD-suc": "get_or_suc",
    "byItself": "left_by_own_turns",
    "notASource": "not_a_source",
    "line_on": "line_on_lem",
    "one_source": "one_source",
} | {n: n.replace("-", "_") + "_lem" for n in (
    "answer-of data-out hear-event in-sids is-active is-poll is-stat longest-waiting marked-end not-both not-put "
    "not-twice of-status one-atn one-dav one-source pass-to polled-if-status role-heard source-step status-if-polled "
    "turns-of end-on-data").split()}


def snake(n):
    if n in BY_HAND:
        return BY_HAND[n]
    if not re.match(r"[a-z0-9]", n):
        return n
    return re.sub(r"(?<=[a-z0-9])([A-Z])", lambda m: "_" + m.group(1).lower(), n.replace("-", "_"))


def files(*ends):
    for folder, dirs, names in os.walk("crates"):
        dirs[:] = sorted(d for d in dirs if d != "out")
        for f in sorted(names):
            if f.endswith(ends):
                yield os.path.join(folder, f)


def read(path):
    with open(path, encoding="utf-8") as f:
        return f.read()


def made_by_rattle(n):
    return re.match(r"(returns|Need)(-|$)", n) or not re.match(r"[a-z0-9]", n)


def declared():
    names = set()
    for p in files(".antt"):
        for line in read(p).split("\n"):
            m = DECLARED.match(line)
            if m and not line.lstrip().startswith("--"):
                names.update(n for n in m.group(1).split() if not made_by_rattle(n) and n not in ("record", "data"))
            m = ALIAS.search(line)
            if m and line.startswith("use Rattle.") and "-" in m.group(1):
                names.add(m.group(1))
    return names


def imported(text, own):
    """The names that a file takes from the kit's library."""
    out = set()
    for line in text.split("\n"):
        m = IMPORT.match(line)
        if m and not any(m.group(1).startswith(f"Rattle.{c}.") for c in own):
            out.update(x.strip().split(" as ")[-1] for x in m.group(2).split(","))
    return out


def turned(code, ren, kept):
    def one(m):
        w = m.group(0)
        return w if w in kept else ren.get(w, w)
    return WORD.sub(one, code)


def comment_turned(text, ren):
    """Prose: names in camel case anywhere, others between backticks alone."""
    camel = {o: n for o, n in ren.items() if re.search(r"[A-Z]", o)}
    text = WORD.sub(lambda m: camel.get(m.group(0), m.group(0)), text)
    return re.sub(r"(?<!`)`([^`\n]+)`(?!`)", lambda m: "`" + turned(m.group(1), ren, ()) + "`", text)


def logic(text, ren, own):
    kept = imported(text, own)
    lines = []
    for line in text.split("\n"):
        m = IMPORT.match(line)
        if m and not any(m.group(1).startswith(f"Rattle.{c}.") for c in own):
            lines.append(line)
            continue
        at = line.find("--") if re.match(r"\s*--", line) else line.find(" -- ")
        code, rest = (line, "") if at < 0 else (line[:at], line[at:])
        lines.append(turned(code, ren, kept) + comment_turned(rest, ren))
    return "\n".join(lines)


def source(text, ren):
    """Code of src/ has no such names but in clauses and comments."""
    camel = {o: n for o, n in ren.items() if re.search(r"[A-Z]", o)}
    lines = []
    for line in text.split("\n"):
        at = line.find("//")
        code, rest = (line, "") if at < 0 else (line[:at], line[at:])
        clause = re.match(r"\s*(ghost use|requires|ensures)", code) or "≡" in code or "λ" in code
        lines.append(turned(code, ren if clause else camel, ()) + comment_turned(rest, ren))
    return "\n".join(lines)


def write(path, text):
    if text != read(path):
        with open(path, "w", encoding="utf-8") as f:
            f.write(text)


def main():
    own = sorted(os.listdir("crates"))
    names = declared()
    ren = {n: snake(n) for n in names if snake(n) != n}
    together = collections.defaultdict(set)
    for n in names:
        together[snake(n)].add(n)
    for new, olds in sorted(together.items()):
        if len(olds) > 1:
            print("look: one name for", ", ".join(sorted(olds)), "->", new)
    # port.py turned some already: what still stands in the old spelling where it does not look
    news = set(together)
    older = lambda w: ren.get(w) or (snake(w) if snake(w) != w and snake(w) in news else None)
    for p in files(".antt"):
        write(p, logic(read(p), ren, own))
    for p in files(".rt"):
        write(p, source(read(p), ren))
    plain = list(files(".edit"))
    for folder, _, fs in sorted(os.walk("tests/machines")):
        plain += [os.path.join(folder, f) for f in sorted(fs) if f.endswith((".patch", ".proof"))]
    for p in plain:
        text = read(p)
        words = {w: older(w) for w in WORD.findall(text) if older(w)}
        lines = [comment_turned(l, words) if l.startswith("#") else turned(l, words, ()) for l in text.split("\n")]
        write(p, "\n".join(lines))
    prose = ["README.md", "tests/README.md", "tests/machines/README.md"]
    for folder, _, fs in sorted(os.walk("docs")):
        prose += [os.path.join(folder, f) for f in sorted(fs) if f.endswith(".md")]
    for p in prose:
        if os.path.exists(p):
            words = {m.group(0) for m in WORD.finditer(read(p))}
            write(p, comment_turned(read(p), {w: older(w) for w in words if older(w)}))


if __name__ == "__main__":
    main()
