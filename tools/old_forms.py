#!/usr/bin/env python3
"""Lists the places of older forms in src/, by the eight points of docs/DESIGN-PASS.md.

usage: python3 tools/old_forms.py [--list] [POINT..]     at the top of the repository

Without --list only the counts are printed, a line for each kind of place. What is listed is found by its text and has still to be read:
the page says of each place what became of it.
"""
import difflib
import os
import re
import sys

LOOP = re.compile(r"^\s*(?:'\w+: )?(while\b.*|loop\s*\{.*)")
CAST = re.compile(r"\bas (?:usize|u64|u32|u16|u8)\b")
WIDE = re.compile(r"\b(?:wide|number|low|high|joined)\((?!&mut self|self|to:)")
NUMBERED = re.compile(r"\bconst ([A-Z_0-9]+): (?:usize|u16|u32|u64) = [0-9_]+;")
ALIAS = re.compile(r"\bconst ([A-Z_0-9]+): usize = (?:PlaceKind|Kind)::\w+ as usize;")
SIZES = {"BYTES", "LEVELS", "GROUPS", "PLACES", "SET_PAIRS", "REPEAT_COUNT", "NO_UPPER_END", "BODY", "HEAD", "STEPS", "CALLS", "BEFORE_BODY", "REPEAT_HEAD", "NUMBERS", "LINE", "STORE", "TABLE", "ROOM"}
FAULTS = {"Refused", "Broken", "Wrong", "Fault", "Within", "End", "NoMatch", "TooHigh"}
GROUPS = [("seen", "taken", "lists|list", "pending"), ("pattern", "code", "places", "depth"), ("to", "out", "at"), ("pattern", "table"), ("buffer", "at"), ("start", "end", "left", "before"), ("query", "word", "store"), ("kind", "next", "a")]


def sources():
    for folder, dirs, names in os.walk("crates"):
        dirs[:] = sorted(d for d in dirs if d != "out")
        if os.path.basename(folder) == "src" or "/src/" in folder + "/":
            for name in sorted(names):
                if name.endswith(".rt"):
                    yield os.path.join(folder, name)


def functions(path):
    """Name, first line, signature, clauses and body of each function of a file."""
    lines = open(path).read().split("\n")
    i = 0
    while i < len(lines):
        m = re.match(r"^(\s*)(?:pub(?:\(\w+\))? )?(?:extern \"C\" )?(?:const )?fn (\w+)", lines[i])
        if not m:
            i += 1
            continue
        j = i
        while True:
            end = lines[j].rstrip()
            clause = re.match(r"^\s*(requires|ensures)", end)
            if end.endswith(";") or not clause and end.endswith(("{", "}")):
                break
            j += 1
        head = lines[i:j + 1]
        k = j
        close = m.group(1) + "}"
        while end.endswith("{") and k < len(lines) and lines[k] != close:
            k += 1
        clauses = [x.strip() for x in head if re.match(r"^\s*(requires|ensures)", x)]
        sign = " ".join(x.strip() for x in head if not re.match(r"^\s*(requires|ensures)", x))
        yield m.group(2), i + 1, sign, clauses, lines[j + 1:k]
        i = k + 1


def params(sign):
    inner = sign[sign.index("(") + 1:]
    depth, out, word = 0, [], ""
    for c in inner:
        if c in "([<":
            depth += 1
        if c in ")]>":
            if depth == 0:
                break
            depth -= 1
        if c == "," and depth == 0:
            out.append(word.strip())
            word = ""
        else:
            word += c
    if word.strip():
        out.append(word.strip())
    return [p.replace("mut ", "", 1) if p.startswith("mut ") else p for p in out]


def point_1():
    for path in sources():
        text = open(path).read()
        for m in re.finditer(r"^(?:pub )?enum (\w+) \{(.*?)^\}", text, re.M | re.S):
            variants = set(re.findall(r"^    (\w+)", m.group(2), re.M))
            if variants & FAULTS and len(variants) < 10:
                yield "own enum like Option or Result", path, text[:m.start()].count("\n") + 1, m.group(1)
        for m in re.finditer(r"^(?:pub )?struct (\w+)[^{;]*\{(.*?)^\}", text, re.M | re.S):
            flags = re.findall(r"^    (?:pub )?(\w+): bool", m.group(2), re.M)
            others = re.findall(r"^    (?:pub )?(\w+): (?!bool)", m.group(2), re.M)
            if flags and others:
                for flag in flags:
                    yield "flag beside a value", path, text[:m.start()].count("\n") + 1, m.group(1) + "." + flag
        for n, line in enumerate(text.split("\n"), 1):
            m = NUMBERED.search(line) or ALIAS.search(line)
            if m and (m.group(1) not in SIZES or "/job/" in path and m.group(1) == "LINE"):
                yield "number for a kind, a refusal or a state", path, n, m.group(1)
            if re.search(r"\b(?:number|kind|call): (?:usize|u16)\b", line):
                yield "number of a kind or a refusal handed on", path, n, line.strip()[:60]


def tokens(body):
    text = re.sub(r"//.*", "", "\n".join(body))
    return [("N" if t[0].isdigit() else t) for t in re.findall(r"\w+|[^\s\w]", text)]


def point_2():
    found = []
    for path in sources():
        for name, line, sign, clauses, body in functions(path):
            t = tokens(body)
            if len(t) >= 20:
                found.append((path, line, name, t))
    for a in range(len(found)):
        for b in range(a + 1, len(found)):
            s, t = found[a][3], found[b][3]
            if min(len(s), len(t)) / max(len(s), len(t)) < 0.75:
                continue
            m = difflib.SequenceMatcher(None, s, t, autojunk=False)
            if m.quick_ratio() >= 0.8 and m.ratio() >= 0.8:
                yield "functions alike in four tokens of five", found[a][0], found[a][1], "%s ~ %s %s:%d" % (found[a][2], found[b][2], found[b][0], found[b][1])


def point_3():
    for path in sources():
        lines = open(path).read().split("\n")
        for n, line in enumerate(lines, 1):
            m = LOOP.match(line)
            if m:
                indent = len(line) - len(line.lstrip())
                body = []
                for later in lines[n:]:
                    if later.strip() == "}" and len(later) - len(later.lstrip()) == indent:
                        break
                    body.append(later)
                counts = re.search(r"\b\w+ (?:\+=|-=) \w+|\b(\w+) = \1 [+-] ", "\n".join(body))
                yield "loop that counts by hand" if counts else "other while or loop", path, n, m.group(1)[:60]


def point_4():
    for path in sources():
        for n, line in enumerate(open(path).read().split("\n"), 1):
            code = line.split("//")[0]
            for _ in CAST.findall(code):
                yield "as", path, n, code.strip()[:70]
            if re.search(r"\bfn (?:wide|number|low|high|joined|byte|digit|pair|least|deeper|sum|digits|refusal|row|decimal|hex)\(", code):
                yield "conversion, order or printing by hand", path, n, code.strip()[:70]


def point_5():
    facts = {}
    for path in sources():
        for name, line, sign, clauses, body in functions(path):
            p = params(sign)
            if len(p) >= 6:
                yield "function of six parameters or more", path, line, "%s (%d)" % (name, len(p))
            names = [x.split(":")[0].strip() for x in p]
            for group in GROUPS:
                if all(any(re.fullmatch(g, x) for x in names) for g in group):
                    yield "parameters that travel together: " + ", ".join(group), path, line, name
            for c in clauses:
                if c.startswith("requires"):
                    for fact in re.split(r" × ", re.sub(r"^requires \w* ?\{|\}$", "", re.sub(r"^requires\s*(\w+ )?\{", "", c)).strip(" {}")):
                        key = re.sub(r"[()]", "", fact.strip())
                        key = key.split(" ")[0] if key[:1].isupper() else key
                        facts.setdefault(key, []).append((path, line, name))
    for key, where in sorted(facts.items()):
        if len(where) >= 3:
            for path, line, name in where:
                yield "fact asked three times or more: " + key, path, line, name


def point_6():
    for path in sources():
        for name, line, sign, clauses, body in functions(path):
            names = {x.split(":")[0].strip(): x.split(":", 1)[1].strip() for x in params(sign) if ":" in x}
            lent = [x for x, t in names.items() if t.startswith("&mut [")]
            ends = [x for x, t in names.items() if t == "usize" and x in ("at", "count", "index", "offset", "end", "to", "carried", "number", "filled")]
            if lent and ends:
                yield "lent buffer with a length or an end beside it", path, line, "%s (%s; %s)" % (name, ", ".join(lent), ", ".join(ends))


def point_7():
    for path in sources():
        for n, line in enumerate(open(path).read().split("\n"), 1):
            if re.search(r"\bif (?:call|word|kind|here\.kind)\b.*(?:==|<=|<)", line) or re.search(r"\bif (?:PlaceKind|Kind|[A-Z_]+)(?:::\w+)? <=? (?:kind|call)\b", line):
                yield "step chosen by a number", path, n, line.strip()[:60]
            m = re.search(r"\bfn (case_\d+)\b", line)
            if m:
                yield "function for each row of a table", path, n, m.group(1)


def point_8():
    every = {}
    texts = {}
    for root in ("crates",):
        for folder, dirs, names in os.walk(root):
            dirs[:] = sorted(d for d in dirs if d != "out")
            for name in sorted(names):
                if name.endswith((".antt", ".rt")):
                    path = os.path.join(folder, name)
                    texts[path] = open(path).read()
                    for w in re.findall(r"[A-Za-z_][\w']*", texts[path]):
                        every[w] = every.get(w, 0) + 1
    pages = " ".join(open(os.path.join("docs", p)).read() for p in sorted(os.listdir("docs")) if p.endswith(".md") and p not in ("PORT.md", "DESIGN-PASS.md")) + open("README.md").read()
    named = set(re.findall(r"[A-Za-z_][\w']*", pages))
    for path, text in texts.items():
        if "/proofs/" not in path:
            continue
        if os.path.basename(path) in ("Answers.antt", "Invariants.antt"):
            yield "answers and invariants", path, 1, "%d lines" % text.count("\n")
            continue
        for m in re.finditer(r"^(?:abbrev |unfoldable )?(?:pub )?([a-z][\w']*)\s*:\s", text, re.M):
            name = m.group(1)
            if name not in named and every[name] == len(re.findall(r"^%s\b|\b%s\s*:" % (re.escape(name), re.escape(name)), text, re.M)):
                yield "lemma that nothing cites", path, text[:m.start()].count("\n") + 1, name


POINTS = [point_1, point_2, point_3, point_4, point_5, point_6, point_7, point_8]


def main():
    args = [a for a in sys.argv[1:] if a != "--list"]
    wanted = [int(a) for a in args] or range(1, 9)
    for n in wanted:
        kinds = {}
        for kind, path, line, what in POINTS[n - 1]():
            kinds.setdefault(kind, []).append((path, line, what))
        for kind in sorted(kinds):
            print("%d\t%d\t%s" % (n, len(kinds[kind]), kind))
            if "--list" in sys.argv:
                for path, line, what in kinds[kind]:
                    print("\t\t%s:%d\t%s" % (path, line, what))


if __name__ == "__main__":
    main()
