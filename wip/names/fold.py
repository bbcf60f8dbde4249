#!/usr/bin/env python3
"""Breaks lines of contracts that are longer than 100 columns, at the outermost place that fits.

    fold.py ROOT [--dry] [CRATE..]
"""
import pathlib
import re
import sys

WIDTH = 100
STEP = 4
CLAUSE = re.compile(r"(requires|ensures|decreases|where)\b")
END = re.compile(r"(pub|fn|\}|impl|let|use|#)")


def breaks_of(line):
    """The places at which a line may be broken, each with its depth of brackets: before a word."""
    depth, found = 0, []
    for at, letter in enumerate(line):
        if letter in "([{":
            depth += 1
        elif letter in ")]}":
            depth -= 1
        elif letter == " " and line[:at].strip():
            found.append((at, depth))
    return found


def is_good(line, at):
    """Whether a line reads well that ends here: not behind a binder's head or an opening sign."""
    before, behind = line[:at], line[at + 1 :]
    if re.search(r"(λ [\w\s'_]*|:)$", before) or behind[:1] in ")]}":
        return False
    if re.match(r"(→|∷|\+\+|≡|∧|∨|↔|⨯|\+|-|\*|<|≤|=)( |$)", behind):
        return False
    return True


def fold(line, indent):
    """The lines that stand for this one."""
    out = []
    while len(line) > WIDTH:
        found = [(at, depth) for at, depth in breaks_of(line) if at <= WIDTH and is_good(line, at)]
        found = [it for it in found if it[0] > len(line) - len(line.lstrip()) + 12]
        if not found:
            break
        least = min(depth for _, depth in found)
        # The outermost that leaves not too little on the line.
        choice = None
        for depth in range(least, least + 12):
            at = max((it[0] for it in found if it[1] == depth), default=None)
            if at is not None and at >= WIDTH // 2:
                choice = at
                break
        if choice is None:
            choice = max(it[0] for it in found)
        out.append(line[:choice].rstrip())
        line = " " * indent + line[choice:].strip()
    return out + [line]


def folded(text):
    out, inside = [], False
    for line in text.splitlines():
        bare = line.strip()
        indent = len(line) - len(line.lstrip())
        begins = bool(CLAUSE.match(bare)) or bool(re.match(r"ghost \w+:", bare))
        if begins:
            inside = True
        elif END.match(bare):
            inside = False
        if inside and len(line) > WIDTH and "//" not in line:
            out += fold(line, indent + STEP if begins else indent)
        else:
            out.append(line)
    return "\n".join(out) + "\n"


def olds(root):
    found = {}
    for edit in root.glob("crates/*/*/*.edit"):
        file = None
        for line in edit.read_text().splitlines():
            if line.startswith("file: "):
                file = edit.parent.parent / line[6:].strip()
            elif line.startswith("old: "):
                found.setdefault(file, []).append((edit, line[5:]))
    return found


def main():
    words = [it for it in sys.argv[1:] if not it.startswith("--")]
    root, crates = pathlib.Path(words[0]), words[1:]
    texts = olds(root)
    left = 0
    for file in sorted(root.glob("crates/*/src/**/*.rt")):
        if crates and file.relative_to(root).parts[1] not in crates:
            continue
        before = file.read_text()
        after = folded(before)
        inside = False
        for line in after.splitlines():
            if CLAUSE.match(line.strip()):
                inside = True
            elif END.match(line.strip()):
                inside = False
            left += inside and len(line) > WIDTH
        for edit, old in texts.get(file, []):
            if after.count(old) != 1:
                print(f"fold: {edit} no longer stands in {file}")
        if after != before and "--dry" not in sys.argv:
            file.write_text(after)
    print(f"fold: {left} lines are left")


if __name__ == "__main__":
    main()
