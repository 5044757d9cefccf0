#!/usr/bin/env python3
"""Joins crates of a repository, as a table says, and renames what names them.

    join_crates.py TOP TABLE [--dry]

TABLE has these lines, with # for a comment:

    TARGET: MEMBER MEMBER ..          a new crate; TARGET may be the name of a member
    MEMBER/src/OLD -> NEW             a file of a member gets another name (src, specs or proofs; no ending)
    MEMBER::OLD -> NEW                a function or type of a member gets another name, wherever it is imported
    tests MEMBER -> CRATE as NAME     the module `tests` of a member goes into CRATE, as NAME
    in FILE: OLD => NEW               a piece of a file of the joined crates, below crates/, that is written otherwise

Each file of a member goes into the target under its own name, or, where two members have a file of one name, under that name behind
the member's (`laws.rt` becomes `member.rt`). Paths in sources, definitions, proofs, edits and crates.txt follow. It says what a person
has to look at: files that got such a made name, names that two members export, modules with the name of a library, and documents that
name a member that is gone.
"""
import os, re, sys, shutil
from collections import defaultdict

top = os.path.realpath(sys.argv[1])
groups, wanted, items, tests, edits = {}, {}, defaultdict(dict), {}, []
for line in open(sys.argv[2]):
    line = line.split("#")[0].strip()
    if not line: continue
    if x := re.fullmatch(r"(\w+)/(src|specs|proofs)/(\w+) -> (\w+)", line): wanted[x[2], x[1], x[3]] = x[4]
    elif x := re.fullmatch(r"(\w+)::(\w+) -> (\w+)", line): items[x[1]][x[2]] = x[3]
    elif x := re.fullmatch(r"in (\S+): (.+?) => (.*)", line): edits.append(x.groups())
    elif x := re.fullmatch(r"tests (\w+) -> (\w+) as (\w+)", line): tests[x[1]] = (x[2], x[3])
    else:
        t, ms = line.split(":")
        assert t.strip() not in groups, f"{t} stands twice"
        groups[t.strip()] = ms.split()
target = {}
for t, ms in groups.items():
    for m in ms:
        assert m not in target, f"{m} stands twice"
        target[m] = t
lines = open(f"{top}/crates.txt").read().split("\n")
deps, order = {}, []
for l in lines:
    s = l.split("#")[0].strip()
    if ":" in s:
        n, d = s.split(":")
        deps[n.split()[0]] = d.split(); order.append(n.split()[0])
assert not set(target) - set(order), set(target) - set(order)
assert not {t for t in groups if t in order and target.get(t) != t}, "the name of a crate that is no member"
here = lambda c, *p: os.path.join(top, "crates", c, *p)
PARTS = (("src", ".rt"), ("specs", ".antt"), ("proofs", ".antt"))
ROOTS = ("lib.rt", "main.rt", "Lib.antt")
camel = lambda s: "".join(w.capitalize() for w in s.split("_"))
texts, listing = {}, {}

def read(path):
    if path not in texts: texts[path] = open(path).read()
    return texts[path]

def files(c, part, ext):
    if (c, part) not in listing:
        listing[c, part] = sorted(os.path.relpath(os.path.join(r, f), here(c, part)) for r, _, fs in os.walk(here(c, part)) for f in fs if f.endswith(ext))
    return listing[c, part]

# what each member exports
exported = defaultdict(set)
for m in target:
    for x in re.finditer(r"pub use \w+::(\{[^}]*\}|\w+);", read(here(m, "src", "lib.rt"))): exported[m] |= set(re.findall(r"\w+", x[1]))

# new names of files, by part, member and old name
moved, notes = {}, []
for t, ms in groups.items():
    taken_by = defaultdict(set)
    for part, ext in PARTS:
        owners = defaultdict(list)
        for m in ms:
            for f in files(m, part, ext):
                if "/" in f or f in ROOTS or (part == "src" and f == "tests.rt" and m in tests): continue
                name = f.rsplit(".", 1)[0]
                owners[wanted.get((part, m, name), name).lower()].append((m, name))
        taken = {k for k, v in owners.items() if len(v) == 1}
        mods = {moved[k].lower() for k in moved if k[0] == "src" and target[k[1]] == t}
        for k, v in owners.items():
            for m, name in v:
                new = wanted.get((part, m, name), name)
                if len(v) > 1:
                    new = (m if name == "laws" and m not in taken else f"{m}_{name}") if part == "src" else camel(m) + name
                # a module has no name of an item that is exported beside it, and a lemma file none of a module's in other letters
                if part == "src" and any(new in exported[o] for o in ms): new = f"{m}_{name}"
                if part == "proofs" and new.lower() in mods: new = camel(m) + name
                assert new.lower() not in taken or len(v) == 1, (t, m, name, new)
                if len(v) > 1: taken.add(new.lower())
                if new != wanted.get((part, m, name), name): notes.append(f"{t}: {m}/{part}/{name} becomes {new}")
                moved[part, m, name] = new
for key in wanted:
    if key not in moved: notes.append(f"{key}: no such file")

PATH = re.compile(r"\bRattle\.(\w+)(?:\.(specs|proofs)\.(?:(declared|contracts)\.)?(\w+))?")
def antt(text):
    """Paths as they are now: Rattle.member.specs.Name, Rattle.member.specs.declared.module and the like."""
    def f(x):
        m, part, kind, name = x.groups()
        if m not in target: return x[0]
        if not part: return f"Rattle.{target[m]}"
        if kind: name = moved.get(("src", m, name), name)
        elif (part, m, name) in moved: name = moved[part, m, name]
        else: name = moved.get(("src", m, name), name)
        return f"Rattle.{target[m]}.{part}.{kind + '.' if kind else ''}{name}"
    return PATH.sub(f, text)

def renamed_items(text, own):
    """Items with their new names: in their member everywhere, elsewhere where they are imported or stand with a path."""
    for old, name in items.get(own, {}).items():
        text = re.sub(rf"(?:\b(\w+)(::|\.))?\b{old}\b(?!-)", lambda x: x[0] if x[2] == "::" and x[1] in deps and x[1] != own and not os.path.isfile(here(own, "src", f"{x[1]}.rt")) else x[0][: -len(old)] + name, text)
    for m, names in items.items():
        if m == own or m not in text: continue
        for old, name in names.items():
            was = text
            text = re.sub(rf"(\buse {m}::\{{[^}}]*)\b{old}\b", rf"\1{name}", text)
            text = re.sub(rf"(\buse {m}::){old};", rf"\1{name};", text)
            if text != was: text = re.sub(rf"(?<!::)\b{old}\b(?!-)", name, text)
            text = re.sub(rf"(\b{m}::){old}\b", rf"\1{name}", text)
            text = re.sub(rf"(\bRattle\.{m}\.[\w.]*\b){old}\b", rf"\1{name}", text)
    return text

def rust(text, own, is_root=False):
    """A source of the crate `own` (a member or not), with its paths as they are now."""
    out = []
    # in the root file a module goes before a crate of its name
    hidden = set(re.findall(r"^(?:pub )?mod (\w+);", text, re.M)) if is_root else set()
    t = target.get(own)
    for line in antt(renamed_items(text, own)).split("\n"):
        if t:
            def of_crate(x):
                part, name = x[1], x[2]
                if part: return f"crate::{part}::{moved.get((part, own, name), moved.get(('src', own, name), name))}"
                return f"crate::{moved.get(('src', own, name), name)}"
            line = re.sub(r"\bcrate::(?:(specs|proofs)::)?(\w+)\b", of_crate, line)
        if not line.lstrip().startswith(("//", "ensures", "requires")):
            def of_member(x):
                m = x[1]
                if m not in target or m in hidden: return x[0]
                root = "crate::" if target[m] == t else f"{target[m]}::"
                return f"{root}{x[2]}::{moved.get((x[2], m, x[3]), moved.get(('src', m, x[3]), x[3]))}" if x[2] else root
            line = re.sub(r"(?<![\w:.])(\w+)::(?:(specs|proofs)::(\w+))?", of_member, line)
            line = re.sub(r"^(\s*(?:pub )?use )(\w+)(\s+as\b|;)", lambda x: f"{x[1]}{target.get(x[2], x[2])}{x[3]}", line)
        out.append(line)
    return "\n".join(out)

new = {}   # path -> text
def put(path, text):
    assert path not in new, f"two files become {path}"
    new[path] = text

def whole(names): return f"{{{', '.join(names)}}}" if len(names) > 1 else names[0]

for t, ms in groups.items():
    docs, mods, uses, other, libs, said = [], {}, defaultdict(dict), [], {"specs": [], "proofs": []}, []
    who = defaultdict(list)
    for m in ms:
        for part, ext in PARTS:
            for f in files(m, part, ext):
                text = read(here(m, part, f))
                if part == "src" and f == "tests.rt" and m in tests: continue
                if part == "src" and f == "lib.rt":
                    docs.append([l for l in text.split("\n") if l.startswith("//!")])
                    body = rust("\n".join(l for l in text.split("\n") if not l.startswith(("//!", "#![tactic(auto)]"))), m, True)
                    def mod(x):
                        if not (x[3] == "tests" and m in tests): mods[moved.get(("src", m, x[3]), x[3])] = x[0].replace(x[3] + ";", moved.get(("src", m, x[3]), x[3]) + ";")
                        return ""
                    body = re.sub(r"(?m)^(#\[cfg\(test\)\]\n)?((?:pub )?mod )(\w+);\n?", lambda x: mod(x), body)
                    def use(x):
                        if x[1] == "crate": return ""
                        origin = moved.get(("src", m, x[1]), x[1])
                        for it in re.findall(r"\w+", x[2]):
                            if origin not in uses[it]: who[it].append(m)
                            uses[it][origin] = True
                        return ""
                    body = re.sub(r"(?ms)^pub use (\w+)::(\{[^}]*\}|\w+);\n?", use, body)
                    if body.strip(): other.append(body.strip())
                elif f == "Lib.antt":
                    for l in text.split("\n"):
                        x = re.match(r"(pub )?mod (\w+)\s*$", l)
                        if x: libs[part].append(f"{x[1] or ''}mod {moved.get((part, m, x[2]), x[2])}")
                        elif l.strip(): said.append(l)
                else:
                    first = f.split("/")[0]
                    if "/" in f: to = "/".join([moved.get(("src", m, first), first), *(items.get(m, {}).get(p, p) for p in f.split("/")[1:])])
                    else: to = moved[part, m, f.rsplit(".", 1)[0]] + ext
                    put(here(t, part, to), rust(text, m) if part == "src" else antt(renamed_items(text, m)))
        for f in files(m, "must-fail", ".edit"):
            text = re.sub(r"^file: src/(\w+)\.rt", lambda x: f"file: src/{moved.get(('src', m, x[1]), x[1])}.rt", read(here(m, "must-fail", f)), flags=re.M)
            put(here(t, "must-fail", f), rust(text, m))
        for r, ds, fs in os.walk(here(m)):
            ds[:] = [d for d in ds if d != "out"]
            for f in fs:
                rel = os.path.relpath(os.path.join(r, f), here(m))
                if rel.split("/")[0] not in ("src", "specs", "proofs", "must-fail"): notes.append(f"crates/{m}/{rel} is not carried over")
    made = "\n//!\n".join("\n".join(d) for d in docs) + "\n#![tactic(auto)]\n"
    if other: made += "\n" + "\n\n".join(other) + "\n"
    made += "\n" + "".join(mods[k].rstrip("\n") + "\n" for k in sorted(mods)) + "\n"
    from_module = defaultdict(list)
    for it, origins in uses.items():
        from_module[next(iter(origins))].append(it)
        if len(origins) > 1: notes.append(f"{t}: {it} is exported by {who[it]}: rename it, since only the first is there now")
    made += "".join(f"pub use {o}::{whole(sorted(from_module[o]))};\n" for o in sorted(from_module))
    put(here(t, "src", "lib.rt"), made)
    for part in libs:
        if libs[part]: put(here(t, part, "Lib.antt"), "\n".join(dict.fromkeys(libs[part])) + "\n")
        elif any(os.path.isfile(here(m, part, "Lib.antt")) for m in ms): put(here(t, part, "Lib.antt"), "")
    if said: notes.append(f"{t}: lines of a Lib.antt left out: {said[:3]}")

# all other crates
for c in order:
    if c in target: continue
    for part, ext in (*PARTS, ("must-fail", ".edit")):
        for f in files(c, part, ext):
            p = here(c, part, f); text = read(p)
            made = antt(renamed_items(text, c)) if part in ("specs", "proofs") else rust(text, c, f == "lib.rt")
            if made != text: new[p] = made

# tests that move
more = defaultdict(list)
for m, (c, name) in tests.items():
    t = target.get(c, c)
    text = rust(read(here(m, "src", "tests.rt")), m)
    text = re.sub(r"\bcrate::", f"{target.get(m, m)}::", text)
    put(here(t, "src", f"{name}.rt"), text)
    root = here(t, "src", "lib.rt")
    new[root] = new.get(root, None) or read(root)
    new[root] = re.sub(r"(?m)\A((?://!.*\n)*#!\[tactic\(auto\)\]\n)", lambda x: f"{x[1]}\n#[cfg(test)]\nmod {name};\n", new[root], count=1).replace(f"mod {name};\n\n", f"mod {name};\n")
    if os.path.isdir(here(m, "proofs", "tests")): notes.append(f"{m}: proofs/tests stays: move it to {t}")
    more[c] += [m] + [d for d in deps[m] if re.search(rf"(?<![\w:.]){d}::", read(here(m, "src", "tests.rt")))]

for f, old, made in edits:
    p = os.path.join(top, "crates", f)
    text = new[p] if p in new else read(p) if os.path.isfile(p) else ""
    if old not in text: notes.append(f"{f}: there is no {old}")
    new[p] = text.replace(old, made)

# crates.txt: the target stands where its last member stood
table, done, uses_of = [], set(), {}
for l in lines:
    s = l.split("#")[0].strip()
    n = s.split(":")[0].split()[0] if ":" in s else None
    if n is None: table.append(l); continue
    t = target.get(n, n)
    ms = groups.get(t, [n]) if n in target else [n]
    if n in target:
        done.add(n)
        if not all(m in done for m in ms): continue
    all_deps = list(dict.fromkeys(target.get(d, d) for m in ms for d in [*deps[m], *more.get(m, [])]))
    uses_of[t] = [d for d in all_deps if d != t]
    head = s.split(":")[0].strip()
    table.append(f"{head if n not in target else t}: " + " ".join(uses_of[t]))

# cycles, and modules with the name of a library below
state, below = {}, {}
def visit(n, path):
    if n not in uses_of: return set()
    if state.get(n) == 1: sys.exit(f"cycle: {' > '.join([*path[path.index(n):], n])}")
    if n not in below:
        state[n] = 1
        below[n] = set().union(*({d} | visit(d, [*path, n]) for d in uses_of[n])) if uses_of[n] else set()
        state[n] = 2
    return below[n]
for n in uses_of:
    visit(n, [])
    root = here(n, "src", "lib.rt")
    text = new[root] if root in new else read(root) if os.path.isfile(root) else ""
    for name in re.findall(r"(?m)^(?:pub )?mod (\w+);", text):
        if name in below[n]: notes.append(f"{n}: the module {name} has the name of a library below: rename it")

if "--dry" not in sys.argv:
    for m in target: shutil.rmtree(here(m))
    for m in tests:
        root = here(target.get(m, m), "src", "lib.rt")
    for p, text in new.items():
        os.makedirs(os.path.dirname(p), exist_ok=True); open(p, "w").write(text)
    open(f"{top}/crates.txt", "w").write("\n".join(table))
gone = sorted({m for m in target if m not in groups}, key=len, reverse=True)
GONE = re.compile(r"\b(" + "|".join(gone) + r")\b")
print(f"{len(order)} crates become {len(order) - len(target) + len(groups)}; {len(new)} files written")
for n in notes: print("look at:", n)
for f in os.popen(f"cd {top} && git ls-files").read().split():
    if f.startswith("crates/") or f == "crates.txt" or not os.path.isfile(f"{top}/{f}"): continue
    found = GONE.findall(open(f"{top}/{f}", errors="replace").read())
    if found: print(f"names crates that are gone: {f} ({len(found)} times, {len(set(found))} crates)")
for p, text in new.items():
    for l in text.split("\n"):
        if l.lstrip().startswith(("//", "--")) and (x := re.search(r"`(" + "|".join(gone) + r")`", l)): print(f"a comment names a crate that is gone: {os.path.relpath(p, top)}: {x[1]}")
