#!/usr/bin/env python3
"""Lemmas of proofs/ that no other text names. unused.py TREE > unused.tsv

Columns: crate, file, line, lemma, whether it is pub, verdict. A lemma counts as named where a file that
imports it from its module has its name outside imports, where its own file has it outside its own
definition, or where a tactic of a .rt file has its path. `delete`: none of these. `only imported`: a file
imports it and does not use it. `uncertain`: a module is imported whole, or its name is a word that a goal
of that function could ask for (an answer file), or it has the name of a Rust function.
"""
import collections, pathlib, re, sys
TOP = pathlib.Path(sys.argv[1]).resolve()
ONLY = set(sys.argv[3].split(",")) if len(sys.argv) > 3 else None      # unused.py TREE --delete A,B: takes those of these crates away

TOK = re.compile(r"[^\s(){};,.\[\]\"]+")
files = {}
for kind in ("antt", "rt"):
    for part in ("specs", "proofs", "src"):
        for p in TOP.glob(f"crates/*/{part}/**/*.{kind}"):
            files[p] = p.read_text()
ANSWER = {"Answers", "Invariants", "Proof"}
SIG = re.compile(r"^( *)(?:(?:abbrev|unfoldable) )?(pub )?(?:abbrev |unfoldable )?([^\s(){};,.\[\]\"=|λ→]+) (?:\{[^}\n]*\} )*:( |$)", re.M)
rust = set()
for p, t in files.items():
    if p.suffix == ".rt":
        rust |= set(re.findall(r"\bfn (\w+)", t))
imports = collections.defaultdict(list)   # (crate, module) -> [(file, names or None)]
for p, t in files.items():
    for m in re.finditer(r"use Rattle\.(clsm_\w+)\.proofs\.([\w.]+?)(?:\.\{([^}\n]*)\})?( as \w+)?;?[ \t]*$", t, re.M):
        names = [x.strip() for x in m[3].split(",")] if m[3] is not None else None
        imports[(m[1], m[2])].append((p, names))
# lines that are not imports nor comments
code = {}
for p, t in files.items():
    out = []
    for line in t.split("\n"):
        s = line.lstrip()
        if s.startswith("use ") or s.startswith("ghost use ") or s.startswith("--") or s.startswith("//"):
            out.append("")
        else:
            out.append(re.sub(r" (--|//) .*$", "", line))
    code[p] = out
tokens = {p: set(TOK.findall("\n".join(c))) | ({x for y in re.findall(r"[\w:]+", "\n".join(c)) for x in y.split("::")} if p.suffix == ".rt" else set()) for p, c in code.items()}
rows, blocks, total, ROUND = [], [], 0, 0
while True:
    ROUND += 1
    fresh = []
    paths = collections.Counter()
    for p, t in files.items():
        if p.suffix == ".rt":
            for m in re.finditer(r"\b(crate|clsm_\w+)::proofs::([\w:]+)", t):
                c = p.relative_to(TOP / "crates").parts[0] if m[1] == "crate" else m[1]
                paths[(c, *m[2].split("::"))] += 1
    for p, t in sorted(files.items()):
        rel = p.relative_to(TOP / "crates")
        if p.suffix != ".antt" or rel.parts[1] != "proofs" or p.stem in ANSWER or p.stem == "Lib":
            continue
        crate, module = rel.parts[0], ".".join(rel.with_suffix("").parts[2:])
        lines = code[p]
        sigs = []
        for k, line in enumerate(lines):
            m = SIG.match(line)
            if not m:
                continue
            indent = len(m[1])
            # top level, or directly in a `module _`
            up = next((j for j in range(k - 1, -1, -1) if lines[j].strip() and len(lines[j]) - len(lines[j].lstrip()) < indent), None)
            if indent and (up is None or not re.match(r" *(pub )?module ", lines[up]) and not (re.match(r"  +", lines[up]) and " where" in lines[up] and re.search(r"\bmodule\b", "\n".join(lines[max(0, up - 4):up + 1])))):
                continue
            if m[3] in ("module", "record", "data", "use", "open", "|"):
                continue
            sigs.append((k, indent, bool(m[2]), m[3]))
        for n, (k, indent, pub, name) in enumerate(sigs):
            total += 1 if ROUND == 1 else 0
            # its own block: to the next line of the same or a lower indent that does not begin with its name
            own = set()
            j = k
            while j < len(lines):
                s = lines[j]
                if j > k and s.strip() and len(s) - len(s.lstrip()) <= indent and not re.match(rf" *{re.escape(name)}(?=[\s(])| *[}})\]]", s):
                    break
                own.add(j)
                j += 1
            near = any(name in TOK.findall(lines[j]) for j in range(len(lines)) if j not in own and name in lines[j])
            if near:
                continue
            used = whole = listed = False
            for q, names in imports[(crate, module)]:
                if names is None:
                    if name in tokens[q]:
                        used = True
                    whole = True
                else:
                    for it in names:
                        a, _, b = it.partition(" as ")
                        if a == name or a == "*":
                            listed = True
                            if (b or name) in tokens[q]:
                                used = True
            # `use Rattle.crate.proofs.{Module.name}` and the like
            for q in files:
                if q.suffix == ".antt" and q != p and re.search(rf"use Rattle\.{crate}\.proofs\.\{{[^}}\n]*\b{re.escape(module)}\.{re.escape(name)}\b", files[q]):
                    used = True
            if paths[(crate, *module.split("."), name)] or any(k2[0] == crate and k2[-1] == name for k2 in paths):
                used = True
            if used:
                continue
            verdict = "only imported" if listed else "delete"
            why = ""
            if verdict == "delete" and whole:
                verdict, why = "uncertain", "its module is imported whole"
            elif name.endswith("_spec") or name in rust:
                verdict, why = "uncertain", "it has the name of a Rust function, or of its proof"
            fresh.append(((crate, "/".join(rel.parts[1:]), str(k + 1), name, "pub" if pub else "private", verdict, why), p, own))

    if ROUND > 1:
        fresh = [((*r[:5], "delete then" if r[5] == "delete" else r[5], r[6] or "only lemmas above name it"), p, own) for r, p, own in fresh]
    fresh = [f for f in fresh if f[0][:4] not in {r[:4] for r in rows}]
    rows += [f[0] for f in fresh]
    blocks += fresh
    gone = [f for f in fresh if f[0][5].startswith("delete")]
    for r, p, own in gone:
        for j in own:
            code[p][j] = ""
        tokens[p] = set(TOK.findall("\n".join(code[p])))
    if not gone or ROUND == 5:
        break
print("# crate\tfile\tline\tlemma\tpub\tverdict\twhy")
for r in rows:
    print("\t".join(r))
print(f"unused: {len(rows)} of {total} lemmas: {collections.Counter(r[5] for r in rows)}", file=sys.stderr)

if len(sys.argv) > 2 and sys.argv[2] == "--delete":
    byfile = collections.defaultdict(set)
    for r, p, own in blocks:
        if r[5].startswith("delete") and (ONLY is None or r[0] in ONLY):
            first = min(own)
            lines = files[p].split("\n")
            own = {j for j in own if lines[j].strip() or j + 1 in own}
            while first > 0 and lines[first - 1].lstrip().startswith("--") and not lines[first - 1].lstrip().startswith("-- ----"):
                first -= 1
                own.add(first)
            last = max(own)
            if last + 1 < len(lines) and not lines[last + 1].strip():
                own.add(last + 1)
            byfile[p] |= own
    for p, own in byfile.items():
        lines = files[p].split("\n")
        text = "\n".join(l for j, l in enumerate(lines) if j not in own).rstrip("\n") + "\n"
        # imports that no line uses any more
        out = []
        rest = "\n".join(l for l in text.split("\n") if not l.lstrip().startswith(("use ", "--")))
        have = set(TOK.findall(rest))
        before = set(TOK.findall("\n".join(l for l in files[p].split("\n") if not l.lstrip().startswith(("use ", "--")))))
        for l in text.split("\n"):
            m = re.match(r"^( *(?:pub )?use [\w.]+\.)\{([^}]*)\}$", l)
            if m:
                keep = []
                for it in [x.strip() for x in m[2].split(",")]:
                    local = it.split(" as ")[-1].rpartition(".")[2]
                    if "◌" in local or local in have or local not in before or local in ("[]",):
                        keep.append(it)
                l = f"{m[1]}{{{', '.join(keep)}}}" if keep else None
            if l is not None:
                out.append(l)
        p.write_text("\n".join(out))
    print(f"deleted in {len(byfile)} files", file=sys.stderr)
