#!/usr/bin/env python3
"""Reads a renamed tree: each import of a spec of the repository has a definition, each old or new name
of the table that a file uses is in scope there, each text of an edit stands once. check.py TREE"""
import collections, pathlib, re, sys
HERE = pathlib.Path(__file__).resolve().parent
TOP = pathlib.Path(sys.argv[1]).resolve()
src = (HERE / "apply.py").read_text().replace("\nmain()\n", "\n")
sys.argv = ["apply.py", str(TOP), "--dry"]
exec(compile(src, "apply", "exec"))
bad = 0
def say(*a):
    global bad
    bad += 1
    print(*a)
DEFS = {}
def defs_of(c, m):
    if (c, m) not in DEFS:
        p = spec_path(c, m)
        names = set()
        if p.exists():
            t = p.read_text()
            names = set(defined(p)) | {m_[1] for m_ in re.finditer(r"^ *(?:pub |abbrev |unfoldable )*(?:data |record )?([\w'◌\-≤≡∷+*<]+) (?:\(|:|\{)", t, re.M)}
            names |= set(re.findall(r"^ *pub ([\w'\-]+) :", t, re.M)) | set(re.findall(r"^ *\|? *([\w'\-]+) :", t, re.M))
            DEFS[(c, m)] = names
        else:
            DEFS[(c, m)] = None
    return DEFS[(c, m)]
NAMES = {r.old for r in ROWS} | {r.new for r in ROWS}
for kind in ("antt", "rt"):
    for part in ("specs", "proofs", "src"):
        for p in sorted(TOP.glob(f"crates/*/{part}/**/*.{kind}")):
            text = p.read_text(); rt = kind == "rt"
            rel = p.relative_to(TOP / "crates")
            imps = imports_of(text)
            seen = collections.Counter(i.local for i in imps)
            for i in imps:
                if i.module.startswith(("declared", "contracts")): continue
                d = defs_of(i.crate, i.module)
                if d is None or i.name not in d:
                    say("NO SUCH", rel, f"{i.crate}.specs.{i.module}.{i.name}")
                if seen[i.local] > 1 and not rt: say("TWICE", rel, i.local)
            scope = {i.local for i in imps}
            other = {x.strip().split(" as ")[-1] for m in re.finditer(r"use [\w.]+\.\{([^}\n]*)\}", text) for x in m[1].split(",")}
            other = {o.rpartition(".")[2] for o in other}
            own = set(re.findall(r"^ *(?:pub |abbrev |unfoldable |record |data )*([\w'\-]+) (?:\([^\n]*)?(?:\{[^\n]*)?:", text, re.M)) if not rt else set()
            if not rt:
                own |= set(re.findall(r"record ([\w'\-]+)", text))
            comments = spans_of_comments(text, "//" if rt else "--"); strings = spans_of_strings(text, comments)
            ghosts = ghost_spans(text, comments + strings) if rt else [(0, len(text))]
            uses = [m.span() for m in re.finditer(r"^[ \t]*(?:ghost )?(?:pub )?use [^\n]*", text, re.M)]
            inside = lambda at, ss: any(a <= at < b for a, b in ss)
            for n in NAMES:
                if n in scope or n not in text: continue
                for m in token(n).finditer(text):
                    at = m.start()
                    if inside(at, comments) or inside(at, strings) or inside(at, uses) or not inside(at, ghosts): continue
                    before, behind = text[max(0, at - 60):at], text[m.end():m.end() + 4]
                    if (re.search(r"\n[ \t]+(pub )?$", before) and re.match(r" :", behind)) or (re.search(r"[{;]\s*$", before) and re.match(r" =", behind)): continue
                    if n in other or n in own: continue
                    e = re.escape(n)
                    if re.search(rf"[({{](?:[\w']+ )*{e}(?: [\w']+)* :|λ (?:\(?[\w']+ )*\(?{e}\b|\blet {e}\b|pub mod {e}\b|open [\w.]+ use|[(] ?(?:[\w']+, )*{e}(?:, [\w']+)*[)]", text) \
                            or re.search(rf"^ *[\w'\-]+(?: [^=:\n]*)?[ (]{e}\b[^=:\n]*=", text, re.M) or (rt and re.search(rf"\b{e}: |\b(?:requires|ensures) {e} |\bfn {e}\b|\b(?:let|mut) {e}\b", text)): continue
                    say("NO SCOPE", f"{rel}:{text.count(chr(10),0,at)+1}", n, "|", text[text.rfind(chr(10),0,at)+1:text.find(chr(10),at)].strip()[:110])
            # unused: an import whose name is used nowhere
            for i in imps:
                if i.name in NAMES and not rt and not [m for m in token(i.local).finditer(text) if not inside(m.start(), uses) and not inside(m.start(), comments)]:
                    say("UNUSED", rel, i.local)
for k in ("edits", "must-fail"):
    for p in sorted(TOP.glob(f"crates/*/{k}/*.edit")):
        crate = p.relative_to(TOP / "crates").parts[0]; texts = {}; now = None; old = None
        for line in p.read_text().split("\n"):
            if line.startswith("file:"): now = line[5:].strip(); texts.setdefault(now, (TOP / "crates" / crate / now).read_text())
            elif line.startswith("old: "):
                old = line[5:]
                if texts[now].count(old) != 1: say("EDIT", p.relative_to(TOP), texts[now].count(old), old[:80])
            elif line.startswith("new:") and old is not None: texts[now] = texts[now].replace(old, line[5:], 1); old = None
print("check:", bad, "faults")
sys.exit(bool(bad))
