#!/usr/bin/env python3
"""Renames spec names so that each is defined once, over a whole tree of the repository.

Afterwards `rt fmt` in each crate: it indents some lines that were broken because they grew too long.

    apply.py TREE [--table FILE] [--crates A,B,..] [--dry]

Reads table.tsv beside it (crate, module below specs/, old name, new name, and for a twin the
crate/module of the definition that stays; a crate with ? before it: the row waits for a definition)
and manual.tsv (file, old text, new text). A second run
over the same tree changes nothing. Prints what it could not decide.
"""
import argparse, collections, pathlib, re, sys

HERE = pathlib.Path(__file__).resolve().parent
ap = argparse.ArgumentParser()
ap.add_argument("tree")
ap.add_argument("--table", default=str(HERE / "table.tsv"))
ap.add_argument("--crates", default="", help="only the rows of these crates, comma separated")
ap.add_argument("--dry", action="store_true")
ap.add_argument("--verbose", action="store_true")
ASK = ap.parse_args()
TOP = pathlib.Path(ASK.tree).resolve()
assert (TOP / "crates.txt").exists(), TOP
notes = []
def note(kind, where, text):
    notes.append(f"{kind}: {where}: {text}")

# ---------------------------------------------------------------- table
Row = collections.namedtuple("Row", "crate module old new twin")
ROWS = []
MAYBE = set()
for line in open(ASK.table):
    if not line.strip() or line.startswith("#"):
        continue
    f = line.rstrip("\n").split("\t") + [""]
    if f[0].startswith("?"):     # a row for a tree that is to come: no fault where it is not there
        MAYBE.add((f[0][1:], f[1], f[2]))
    ROWS.append(Row(f[0].lstrip("?"), f[1], f[2], f[3], tuple(f[4].split("/")) if f[4] else None))
if ASK.crates:
    only = set(ASK.crates.split(","))
    ROWS = [r for r in ROWS if r.crate in only]

# ---------------------------------------------------------------- definitions
RECORD = re.compile(r"(?:\s*pub )?record (\w+)")
TYPED = re.compile(r"(?:\s*(?:abbrev|unfoldable) )?(?:pub )?(\w+) :")
def spec_path(crate, module):
    return TOP / "crates" / crate / "specs" / (module.replace(".", "/") + ".antt")
def defined(path):
    return [m[1] for l in path.read_text().splitlines() if (m := RECORD.match(l) or TYPED.match(l))]

live = {}          # (crate, module, old) -> Row, of definitions that stand in the tree
for r in ROWS:
    p = spec_path(r.crate, r.module)
    names = defined(p) if p.exists() else []
    if r.old in names and r.twin:
        live[(r.crate, r.module, r.old)] = r
    elif r.old in names and r.old != r.new:
        live[(r.crate, r.module, r.old)] = r
        if r.new in names:
            note("CLASH", p.relative_to(TOP), f"{r.new} is defined there already")
    elif not r.twin and r.new not in names and (r.crate, r.module, r.old) not in MAYBE:
        note("GONE", f"{r.crate}/{r.module}", f"neither {r.old} nor {r.new} is defined")

def target(key):
    """Where a name goes: (crate, module, name), following renames of what a twin is folded into."""
    r = live.get(key)
    if not r:
        return key
    return (*r.twin, r.new) if r.twin else (r.crate, r.module, r.new)

# ---------------------------------------------------------------- lexing
NAMECH = r"[\w'◌\-]"
def token(name):
    return re.compile(rf"(?<![\w'◌.\-]){re.escape(name)}(?![\w'◌]|-\w)")

def spans_of_comments(text, mark):
    """(start, end) of comments of an antt or a rt file; strings are left out."""
    out, i, n = [], 0, len(text)
    stop = re.compile(r'"|' + mark + (r"|'(?:\\.|[^\\'])'" if mark == "//" else ""))
    while m := stop.search(text, i):
        i = m.end()
        if m[0] == '"':
            while i < n and text[i] != '"':
                i += 2 if text[i] == "\\" else 1
            i += 1
        elif m[0] == mark and (mark == "//" or m.start() == 0 or text[m.start() - 1] in " \n("):
            j = text.find("\n", i)
            i = n if j < 0 else j
            out.append((m.start(), i))
    return out

def spans_of_strings(text, comments):
    out, i, n = [], 0, len(text)
    while (i := text.find('"', i)) >= 0:
        over = next((b for a, b in comments if a <= i < b), None)
        if over is not None:
            i = over
            continue
        j = i + 1
        while j < n and text[j] != '"':
            j += 2 if text[j] == "\\" else 1
        out.append((i, j + 1))
        i = j + 1
    return out

OPENER = re.compile(
    r"(?:\b(?:requires|ensures|invariant|decreases|where|by|shows)\b\*?(?:\s+\w+)?|\bghost\s+(?:fn\s+)?\w+(?:\s*\([^)]*\))?\s*[:=]|\bprove!)\s*\{")
def ghost_spans(text, skip):
    """The parts of a rt file that are antt: between the braces of clauses and ghost items."""
    out = []
    inskip = lambda i: any(a <= i < b for a, b in skip)
    for m in OPENER.finditer(text):
        if inskip(m.start()):
            continue
        depth, i = 0, m.end() - 1
        while i < len(text):
            if text[i] in "{}" and not inskip(i):
                depth += 1 if text[i] == "{" else -1
                if depth == 0:
                    break
            i += 1
        out.append((m.end() - 1, i + 1))
    return out

# ---------------------------------------------------------------- imports
LIST = re.compile(r"^([ \t]*(?:ghost )?(?:pub )?use Rattle\.(clsm_\w+)\.specs\.)([\w.]+)\.\{([^}\n]*)\}(;?)", re.M)
MANY = re.compile(r"^([ \t]*(?:ghost )?use Rattle\.(clsm_\w+)\.specs)\.\{([^}\n]*)\}(;?)", re.M)
WHOLE = re.compile(r"^[ \t]*(?:ghost )?use Rattle\.(clsm_\w+)\.specs\.([\w.]+?)(?: as (\w+))?;?[ \t]*$", re.M)

class Import:
    def __init__(self, crate, module, name, local):
        self.crate, self.module, self.name, self.local = crate, module, name, local
    @property
    def key(self):
        return (self.crate, self.module, self.name)

def items_of(text):
    return [i.strip() for i in text.split(",") if i.strip()]

def imports_of(text):
    found = []
    for m in LIST.finditer(text):
        for it in items_of(m[4]):
            name, _, alias = it.partition(" as ")
            found.append(Import(m[2], m[3], name, alias or name))
    for m in MANY.finditer(text):
        for it in items_of(m[3]):
            path, _, alias = it.partition(" as ")
            module, _, name = path.rpartition(".")
            found.append(Import(m[2], module, name, alias or name))
    return found

def is_ordered(items):
    return items == sorted(items) and "ascii" or items == sorted(items, key=str.lower) and "lower" or ""

def reorder(before, after):
    how = is_ordered(before)
    if how == "ascii":
        return sorted(after)
    if how == "lower":
        return sorted(after, key=str.lower)
    return after

# ---------------------------------------------------------------- one file
BINDERS = [r"λ (?:[\w']+ )*{n}(?: [\w']+)*\.", r"\((?:[\w']+ )*{n}(?: [\w']+)* :", r"\{{(?:[\w']+ )*{n}(?: [\w']+)* :",
           r"\blet {n}\b"]

class Plan:
    """What a file comes to: edits of tokens, and new import lines."""
    def __init__(self, path, text):
        self.path, self.text = path, text
        self.edits = []       # (start, end, new)
        self.names = {}       # local name before -> after
        self.aliases = {}     # module alias -> (crate, module)

def where(path, text, at):
    return f"{path.relative_to(TOP)}:{text.count(chr(10), 0, at) + 1}"

def plan_of(path, text):
    rt = path.suffix == ".rt"
    plan = Plan(path, text)
    rel = path.relative_to(TOP / "crates")
    own = (rel.parts[0], ".".join(rel.with_suffix("").parts[2:])) if rel.parts[1] == "specs" else None
    imports = imports_of(text)
    # -- what each local name becomes
    renamed = {}   # local -> new local
    for i in imports:
        t = target(i.key)
        if t != i.key:
            if i.local in renamed and renamed[i.local] != t[2]:
                note("UNDECIDED", path.relative_to(TOP), f"{i.local} is imported from two modules")
            renamed[i.local] = t[2]
    if own:
        for (c, m, n), r in live.items():
            if (c, m) == own:
                if n in renamed:
                    note("UNDECIDED", path.relative_to(TOP), f"{n} is defined and imported")
                renamed[n] = r.new
    # -- an alias that is no longer needed: the name of another module went
    doubled = {r.old for r in ROWS}
    for i in imports:
        if i.local != i.name and i.name in doubled and i.key not in live and i.local not in renamed:
            others = {j.local for j in imports if j is not i} | {j.name for j in imports if j.key != i.key} | set(defined(path) if own else [])
            after = {renamed.get(o, o) for o in others if o in {j.local for j in imports} or own}
            if i.name in others and i.name not in after:
                renamed[i.local] = i.name
    for a, b in list(renamed.items()):
        if a == b:
            continue
        # -- the new name must be free here
        taken = [m for m in token(b).finditer(text)]
        if taken and b not in renamed and not any(i.name == b or i.local == b for i in imports) and not (own and b in defined(path)):
            note("CLASH", where(path, text, taken[0].start()), f"{b} (for {a}) is a name here already")
    plan.names = renamed
    for m in WHOLE.finditer(text):
        plan.aliases[m[3] or m[2].rpartition(".")[2]] = (m[1], m[2])
    named = rt and re.search(r"\b(crate|clsm_\w+)::specs::", text)
    if not renamed and not named and not any((c, m) in plan.aliases.values() for (c, m, n) in live):
        plan.moved = []
        return plan
    # -- spans
    comments = spans_of_comments(text, "//" if rt else "--")
    strings = spans_of_strings(text, comments)
    body = text
    for a, b in comments:
        body = body[:a] + " " * (b - a) + body[b:]
    uses = [m.span() for m in re.finditer(r"^[ \t]*(?:ghost )?(?:pub )?use Rattle\.[^\n]*", text, re.M)]
    inside = lambda at, spans: any(a <= at < b for a, b in spans)
    ghosts = ghost_spans(text, comments + strings) if rt else [(0, len(text))]
    drops = []
    # -- twins: the definition goes
    if own:
        for (c, m, n), r in live.items():
            if (c, m) == own and r.twin:
                block = re.search(rf"(?:^--[^\n]*\n)*^(?:pub record|abbrev pub|pub|unfoldable pub) ?{n}\b[^\n]*\n(?:[^\n]+\n)*\n?", text, re.M)
                if not block:
                    note("UNDECIDED", path.relative_to(TOP), f"the definition of {n} is not found")
                else:
                    drops.append(block.span())
    # -- tokens
    for a, b in renamed.items():
        if a == b:
            continue
        for m in token(a).finditer(text):
            at = m.start()
            if inside(at, uses) or inside(at, drops) or inside(at, strings):
                if inside(at, strings) and ASK.verbose:
                    note("string", where(path, text, at), a)
                continue
            if inside(at, comments):
                quoted = text[at - 1:at] == "`" and text[m.end():m.end() + 1] == "`"
                if quoted or "_" in a or re.search(r"[a-z][A-Z]", a):
                    if not (rt and not quoted):
                        plan.edits.append((at, m.end(), b))
                        continue
                note("comment", where(path, text, at), f"{a} -> {b}? " + text[text.rfind(chr(10), 0, at) + 1:text.find(chr(10), at)].strip())
                continue
            before, behind = text[max(0, at - 80):at], text[m.end():m.end() + 4]
            if (re.search(r"\n[ \t]+(pub )?$", before) and re.match(r" : ", behind)) or (
                    re.search(r"[{;]\s*$", before) and re.match(r" = ", behind)):
                if ASK.verbose:
                    note("field", where(path, text, at), a)
                continue      # a field of that name: declared, or set
            if not inside(at, ghosts):
                if ASK.verbose:
                    note("rust", where(path, text, at), f"{a}: " + text[text.rfind(chr(10), 0, at) + 1:text.find(chr(10), at)].strip())
                continue
            plan.edits.append((at, m.end(), b))
        # -- places that bind the name anew: the reader has to look
        for shape in BINDERS:
            for m in re.finditer(shape.format(n=re.escape(a)), body):
                if rt and not inside(m.start(), ghosts):
                    continue
                if own and re.match(r"(?:^|\n)(?:abbrev |unfoldable )?(?:pub )?" + re.escape(a) + " :", m[0]):
                    continue
                note("BOUND", where(path, text, m.end() - 1), f"{a} -> {b}? " + m[0].strip()[:100])
    # -- names by a module's name
    for alias, (c, mod) in plan.aliases.items():
        for (rc, rm, n), r in live.items():
            if (rc, rm) == (c, mod):
                for m in re.finditer(rf"(?<![\w'◌.\-]){alias}\.{re.escape(n)}(?![\w'◌]|-\w)", text):
                    if r.twin:
                        note("UNDECIDED", where(path, text, m.start()), f"{m[0]} is a twin")
                    plan.edits.append((m.end() - len(n), m.end(), r.new))
    # -- paths in tactics: crate::specs::Module::name, clsm_x::specs::Module::name
    if rt:
        for m in re.finditer(r"\b(crate|clsm_\w+)::specs::(\w+)::(\w+)\b", text):
            c = rel.parts[0] if m[1] == "crate" else m[1]
            t = target((c, m[2], m[3]))
            if t != (c, m[2], m[3]):
                head = "crate" if t[0] == rel.parts[0] else t[0]
                plan.edits.append((m.start(), m.end(), f"{head}::specs::{t[1]}::{t[2]}"))
    # -- import lines
    moved = []     # names that now come from another module
    for m in LIST.finditer(text):
        items, out, changed = items_of(m[4]), [], False
        for it in items:
            name, _, alias = it.partition(" as ")
            t = target((m[2], m[3], name))
            local = renamed.get(alias or name)
            if t[:2] != (m[2], m[3]):
                changed = True
                if own != t[:2]:
                    moved.append(t)
            elif t[2] != name or (alias and local):
                changed = True
                out.append(t[2])
            else:
                out.append(it)
        if changed:
            out = reorder(items, list(dict.fromkeys(out)))
            plan.edits.append((m.start(), m.end(), f"{m[1]}{m[3]}.{{{', '.join(out)}}}{m[5]}" if out else "\0"))
    for m in MANY.finditer(text):
        items, out, changed = items_of(m[3]), [], False
        for it in items:
            path_, _, alias = it.partition(" as ")
            module, _, name = path_.rpartition(".")
            t = target((m[2], module, name))
            if t != (m[2], module, name):
                changed = True
                if t[0] == m[2]:
                    out.append(f"{t[1]}.{t[2]}")
                else:
                    moved.append(t)
            else:
                out.append(it)
        if changed:
            out = reorder(items, list(dict.fromkeys(out)))
            plan.edits.append((m.start(), m.end(), f"{m[1]}.{{{', '.join(out)}}}{m[4]}" if out else "\0"))
    if own:
        for (c, mod, n), r in live.items():
            if (c, mod) == own and r.twin:
                moved.append((*r.twin, r.new))
    for a, b in drops:
        plan.edits = [e for e in plan.edits if not a <= e[0] < b]
        plan.edits.append((a, b, ""))
    plan.moved = list(dict.fromkeys(moved))
    return plan

def wrapped(line, is_rt):
    """A line of antt that grew too long, as two or more."""
    out = []
    while len(line) > 160:
        indent = len(line) - len(line.lstrip())
        body = line.lstrip()
        goes_on = re.match(r"[→×∙⊎≡(]|subst|\w+ \(?λ", body) and out or re.match(r"[→×∙⊎]", body)
        depth, best = 0, None
        for i, c in enumerate(line):
            depth += (c in "({[") - (c in ")}]")
            if not indent + 20 < i <= 150 or c != " ":
                continue
            rest = line[i + 1:]
            if rest.startswith("Type 0 where"):
                kind = 0
            elif re.match(r"[→×∙⊎] ", rest) or line[:i].endswith(" in"):
                kind = 1
            elif re.match(r"≡ ", rest):
                kind = 4
            elif re.match(r"[=↦:.;] |in ", rest) or line[i - 1] in "=:↦.λ;" or re.search(r" (let|record|pub)$|λ[^.]*$|^\s*\w+$", line[:i]):
                continue
            else:
                kind = 3
            if best is None or (depth, kind, -i) < best[0]:
                best = ((depth, kind, -i), i)
        if not best:
            break
        i = best[1]
        out.append(line[:i].rstrip())
        line = " " * (indent if goes_on or is_rt else indent + 4) + line[i + 1:].lstrip()
        if not (goes_on or is_rt):
            is_rt = True       # what follows keeps the indent of the first continuation
    return out + [line]

def inside_code(text, at):
    start = text.rfind("\n", 0, at) + 1
    return "--" not in text[start:at]

def result_of(plan):
    text, path = plan.text, plan.path
    edits = sorted(set(plan.edits))
    for (a, b, _), (c, d, _) in zip(edits, edits[1:]):
        if c < b:
            note("UNDECIDED", where(path, text, c), "two edits of one place")
    out, at = [], 0
    for a, b, new in edits:
        out.append(text[at:a])
        out.append(new)
        at = b
    out.append(text[at:])
    new = re.sub("\0\n", "", "".join(out))
    rt = path.suffix == ".rt"
    body = re.sub(r"^[ \t]*use [^\n]*", "", new, flags=re.M)
    for a, b in plan.names.items():
        if not rt and a != b and not any(inside_code(body, m.start()) for m in token(b).finditer(body)):
            for m in list(LIST.finditer(new)):
                items = items_of(m[4])
                if b in items:
                    left = [i for i in items if i != b]
                    new = new.replace(m[0] + "\n", f"{m[1]}{m[3]}.{{{', '.join(left)}}}{m[5]}\n" if left else "")
                    note("dropped", path.relative_to(TOP), f"the import of {b}, which no line uses")
    for c, m, n in plan.moved:
        if not rt and not any(inside_code(body, k.start()) for k in token(n).finditer(body)):
            continue
        head = ("ghost use " if rt else "use ") + f"Rattle.{c}.specs.{m}."
        end = ";" if rt else ""
        line = re.search(rf"^{re.escape(head)}\{{([^}}\n]*)\}}", new, re.M)
        if line:
            items = items_of(line[1])
            if n not in items:
                new = new[:line.start()] + head + "{" + ", ".join(reorder(items, items + [n]) if is_ordered(items) else items + [n]) + "}" + new[line.end():]
        elif not re.search(rf"^(?:ghost )?use Rattle\.{c}\.specs\.\{{[^}}\n]*\b{m}\.{n}\b", new, re.M):
            # behind the last import of a crate that stands no higher, else behind the last import
            mine = [k for k in re.finditer(rf"^(?:ghost )?use Rattle\.{c}\.specs\.[^\n]*\n", new, re.M)]
            alls = [k for k in re.finditer(r"^(?:ghost )?use Rattle\.std\.[^\n]*\n", new, re.M)] if not mine else mine
            if not alls:
                note("UNDECIDED", path.relative_to(TOP), f"no place for the import of {m}.{n}")
                continue
            k = alls[-1].end()
            new = new[:k] + f"{head}{{{n}}}{end}\n" + new[k:]
    # -- import lines that grew too long are two
    lines = []
    for line in new.split("\n"):
        m = re.match(r"^([ \t]*(?:ghost )?use Rattle\.[\w.]+\.)\{([^}]*)\}(;?)$", line)
        if m and len(line) > 160 and line not in text.split("\n"):
            items, row = items_of(m[2]), []
            for it in items:
                if row and len(m[1]) + len(", ".join(row + [it])) + 3 > 150:
                    lines.append(f"{m[1]}{{{', '.join(row)}}}{m[3]}")
                    row = []
                row.append(it)
            lines.append(f"{m[1]}{{{', '.join(row)}}}{m[3]}")
        elif len(line) > 160 and line not in text.split("\n"):
            lines += wrapped(line, rt)
        else:
            lines.append(line)
    for k in range(len(lines) - 1, 0, -1):
        a = re.match(r"^([ \t]*(?:ghost )?use Rattle\.[\w.]+\.)\{([^}]*)\}(;?)$", lines[k - 1])
        b = re.match(r"^([ \t]*(?:ghost )?use Rattle\.[\w.]+\.)\{([^}]*)\}(;?)$", lines[k])
        if a and b and a[1] == b[1] and lines[k - 1] not in text.split("\n") and len(a[2]) < 60 and len(lines[k]) + len(a[2]) < 150:
            both = items_of(a[2]) + items_of(b[2])
            lines[k - 1:k + 1] = [f"{a[1]}{{{', '.join(both)}}}{a[3]}"]
    new = "\n".join(lines)
    old = set(text.split("\n"))
    for k, line in enumerate(new.split("\n")):
        if len(line) > 160 and line not in old:
            note("LONG", f"{path.relative_to(TOP)}:{k + 1}", f"{len(line)} columns")
        elif rt and len(line) > 100 and line not in old and re.match(r"\s*(ensures|requires|\w+ \{)", line) and not any(len(l) > 100 for l in old if l.lstrip()[:20] == line.lstrip()[:20]):
            note("wide", f"{path.relative_to(TOP)}:{k + 1}", f"{len(line)} columns: a clause")
    return new

# ---------------------------------------------------------------- edits (wrong bodies)
def edit_result(path, plans, text):
    crate = path.relative_to(TOP / "crates").parts[0]
    lines = text.split("\n")
    now, state = None, {}
    out = list(lines)
    for k, line in enumerate(lines):
        if line.startswith("file:"):
            now = TOP / "crates" / crate / line[5:].strip()
        elif line.startswith("old: ") and now in plans:
            plan = plans[now]
            old = line[5:]
            at = plan.text.find(old)
            names = {}
            if plan.text.count(old) == 1:
                got, last = [], 0
                for a, b, new in sorted(set(plan.edits)):
                    if at <= a and b <= at + len(old):
                        got.append(old[last:a - at] + new)
                        last = b - at
                        names[plan.text[a:b]] = new
                    elif a < at + len(old) and b > at:
                        note("EDIT", path.relative_to(TOP), f"its text {old.strip()[:60]} is cut by a change")
                out[k] = "old: " + "".join(got) + old[last:]
            else:
                hit = [a for a in plan.names if a != plan.names[a] and token(a).search(old)]
                if hit:
                    note("EDIT", path.relative_to(TOP), f"its text stands {plan.text.count(old)} times, and has {hit}")
            nxt = next((j for j in range(k + 1, len(lines)) if lines[j].startswith("new: ") or lines[j] == "new:"), None)
            if nxt is not None:
                new = lines[nxt]
                for a, b in plan.names.items():
                    if a == b or not token(a).search(new):
                        continue
                    if a in names:
                        new = token(a).sub(b, new)
                    elif a[0].isupper() or now.suffix == ".antt":
                        new = token(a).sub(b, new)
                        note("edit", path.relative_to(TOP), f"its new text has {a}, now {b}")
                    else:
                        note("EDIT", path.relative_to(TOP), f"its new text has {a}: is it the spec name?")
                out[nxt] = new
    return "\n".join(out)

# ---------------------------------------------------------------- run
def main():
    files = [p for kind in ("antt", "rt") for part in ("specs", "proofs", "src")
             for p in sorted(TOP.glob(f"crates/*/{part}/**/*.{kind}"))]
    plans, results = {}, {}
    for p in files:
        text = p.read_text()
        plan = plan_of(p, text)
        if plan.edits or plan.moved or plan.names:
            plans[p] = plan
    for p, plan in plans.items():
        new = result_of(plan)
        if new != plan.text:
            results[p] = new
    for kind in ("edits", "must-fail"):
        for p in sorted(TOP.glob(f"crates/*/{kind}/*.edit")):
            text = p.read_text()
            new = edit_result(p, plans, text)
            if new != text:
                results[p] = new
    # patches by hand
    manual = HERE / "manual.tsv"
    if manual.exists():
        for line in manual.read_text().splitlines():
            if not line.strip() or line.startswith("#"):
                continue
            f = line.split("\t")
            p = TOP / f[0]
            old, new = f[1].replace("\\n", "\n").replace("\\t", "\t"), f[2].replace("\\n", "\n").replace("\\t", "\t")
            if not p.exists():
                if old == "":
                    results[p] = new
                else:
                    note("PATCH", f[0], "no such file")
                continue
            text = results.get(p) if p in results else p.read_text()
            if old and new not in text and text.count(old) == 1:
                results[p] = text.replace(old, new)
            elif old and new in text and (old not in text or old in new):
                pass
            elif old:
                note("PATCH", f[0], f"its text stands {text.count(old)} times: {old[:70]!r}")
    if not ASK.dry:
        for p, new in results.items():
            p.parent.mkdir(parents=True, exist_ok=True)
            p.write_text(new)
    # what other texts say
    old_names = {r.old: r.new for r in live.values() if r.old != r.new}
    for p in sorted(list(TOP.glob("docs/**/*.md")) + list(TOP.glob("*.md")) + list(TOP.glob("crates/*/README.md"))
                    + list(TOP.glob("capi/gen/*")) + [q for q in TOP.glob("tools/*") if q.is_file()]):
        text = results.get(p) or p.read_text(errors="replace")
        for k, line in enumerate(text.split("\n")):
            for a in old_names:
                if re.search(rf"`{re.escape(a)}`|\b{re.escape(a)}\.|record {re.escape(a)}\b|\"{re.escape(a)}[ \"]", line) and (re.search(r"[a-z_][A-Z_]", a) or f"`{a}`" in line or f'"{a}' in line):
                    note("TEXT", f"{p.relative_to(TOP)}:{k + 1}", f"{a}: {line.strip()[:150]}")
    print("\n".join(notes))
    print(f"apply: {len(results)} files {'would be' if ASK.dry else ''} changed, {len(live)} rows applied of {len(ROWS)}, {len(notes)} notes")

main()
