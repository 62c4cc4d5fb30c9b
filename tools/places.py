#!/usr/bin/env python3
"""Finds the places that the design pass is about, and counts them.

usage: python3 tools/places.py [N] [--at COMMIT]     N: a point, 1 to 8; COMMIT: read the files as they were then

Points 1 to 7 look at crates/*/src, point 8 at crates/*/proofs. Patterns find most places. tools/places.txt has the rest:
a line with + names a place that was read and that no pattern finds (it counts while its text stands in the file), a line
with - one that a pattern finds and that was read and is no place, with the reason.
"""
import collections
import difflib
import itertools
import pathlib
import re
import subprocess
import sys

TOP = pathlib.Path(__file__).resolve().parent.parent
# A function, type or constant: body has the lines between its braces, each with its number.
Item = collections.namedtuple("Item", "kind name owner file line doc sig clauses body")
FN = re.compile(r"( *)(?:pub(?:\(\w+\))? )?fn (\w+)")
TYPE = re.compile(r"(?:pub(?:\(\w+\))? )?(struct|enum|const) (\w+)")
OWNER = re.compile(r"(?:pub )?(?:impl|trait)\b.*?(\w+)(?:<[^>]*>)?(?:: \w+)? \{$")
KEEP = set("as break const else enum false fn for if impl in let loop match mut return self Self struct true while Some None Ok Err".split())
TOKEN = re.compile(r"b?\"(?:[^\"\\]|\\.)*\"|b?'(?:[^'\\]|\\.)'|'?\w+|[^\s\w]")


def read_files(commit, part, ending):
    """The files of crates/*/PART with this ending, each with its text."""
    def git(*words):
        return subprocess.run(["git", "-C", TOP, *words], check=True, capture_output=True, text=True).stdout
    if commit:
        names = git("ls-tree", "-r", "--name-only", commit, "crates").split()
    else:
        names = [str(path.relative_to(TOP)) for path in TOP.glob("crates/**/*" + ending)]
    names = sorted(n for n in names if n.split("/")[2] == part and n.endswith(ending))
    return {n: git("show", f"{commit}:{n}") if commit else (TOP / n).read_text() for n in names}


def items_of(file, text):
    lines, owner, doc, found = text.split("\n"), "", [], []
    for i, line in enumerate(lines):
        fn, kind = FN.match(line), TYPE.match(line)
        if OWNER.match(line):
            owner = OWNER.match(line).group(1)
        elif line == "}":
            owner = ""
        if re.match(r" *//", line):
            doc.append(line.strip(" /"))
        elif fn or kind:
            indent, sig, clauses, body, j = fn.group(1) if fn else "", [], [], [], i
            while True:
                if re.match(r" *(requires|ensures) ", lines[j]):
                    clauses.append((j + 1, lines[j].strip()))
                elif lines[j].endswith("{"):
                    sig.append(lines[j].strip(" {"))
                    end = lines.index(indent + "}", j)
                    body = list(enumerate(lines[j + 1:end], j + 2))
                    break
                else:
                    sig.append(lines[j].strip())
                if re.search(r"(;|\{\})$", lines[j]):
                    break
                j += 1
            found.append(Item("fn" if fn else kind.group(1), (fn or kind).group(2), owner, file, i + 1, " ".join(doc),
                              " ".join(sig).strip(), tuple(clauses), tuple(body)))
        if not re.match(r" *(//|#\[)", line):
            doc = []
    return found


def full(item):
    return f"{item.owner}::{item.name}" if item.owner and item.kind == "fn" else item.name


def code(item):
    """The text of a body, without comments."""
    return "\n".join(t for _, t in item.body if not t.strip().startswith("//"))


def params(item):
    inside = re.search(r"\((.*?)\)(?: ->|$|;)", item.sig)
    parts = re.findall(r"(\w+): ((?:[^,(\[<]|<[^>]*>|\([^)]*\)|\[[^\]]*\])+)", inside.group(1)) if inside else []
    return [(name, kind.strip()) for name, kind in parts]


def result(item):
    return item.sig.split(" -> ")[1] if " -> " in item.sig else ""


def shape(text):
    """The tokens of a text with names, numbers and strings left out."""
    def one(t):
        return t if t in KEEP or not re.match(r"[\w'\"]", t) else "N" if t[0].isdigit() else "S" if t[-1] in "'\"" else "I"
    return [one(t) for t in TOKEN.findall(re.sub(r"//.*", "", text))]


def where(all_items, file, line):
    """The name of the function or type that a line stands in, or that a comment stands before."""
    own = [x for x in all_items if x.file == file and x.line <= line <= max(n for n, _ in [(x.line, 0), *x.clauses, *x.body])]
    after = [x for x in all_items if x.file == file and x.line > line]
    return full((own[-1:] or after)[0])



# What patterns find, point by point: in a part (comments, functions, structs, enums), a pattern, and what it is.
# A function's text is its signature, a line, and then its body.
RULES = {
    1: [
        ("enum", r"\A.*\n(.*[({].*\n.*|.*\n.*[({].*)\Z|^ +(No|None|Err)\b", "own enum like Option or Result"),
        ("struct", r": bool,", "a flag in a struct"),
        ("doc", r"\b0 (where|unless|stands)\b|\belse 0\b|too many to keep if", "a number for none"),
        ("fn", r"None => 0,|_ => 0,$|unwrap_or\((0|99)\)|^ +line: 0,|row_of\(0,|\*slot == 0|"
               r"\.owner\([^)]*\)( [!=]=|,) 0|\.own\(.*, 0\)", "a number for none"),
        ("fn", r"Said::No\(\d", "a number for a refusal"),
        ("enum", r"\bNo\(u32\)", "a number for a refusal"),
        ("fn", r"reports_of\(\d\)|0\.\.7u32|\A.*\b(code|mode|drawn|action): u\d", "a number for a kind"),
        ("fn", r"\A.* -> Option<\w*(Refusal|Fault|Error)>\n", "an Option of an error for a Result"),
        ("fn", r"None => (None,|Err\(|false|\w+::\w+,|unreachable\(\))|Err\(_\) => None|Ok\((\w+)\) => Ok\(\2\)|"
               r"let (\w+) = [^;]*\?;\n *Ok\(\3\)$|\} else \{\n +None$|let Some\(\w+\) = [^;{]* else \{\n *return (Err\(.*|None);",
         "an Option or Result made or taken apart by hand"),
    ],
    4: [
        ("fn", r"\A.*fn (stands_before|cmp|partial_cmp|lt|le)\b", "order"),
        ("fn", r"\A.*&'static(.|\n)*=> b?\"", "printing: an enum to its word"),
        ("fn", r"'0' \+|\bn / 10\)", "printing: digits"),
        ("fn", r"(\w+::\w+ => \d+,\s*){3}", "conversion: an enum to its number"),
        ("fn", r"b\"\w+\" => Some|== b\"\w+\"", "conversion: a text to an enum"),
        ("fn", r"\d => \w+::\w+,\s*_ => \w+::\w+,", "conversion: a number to an enum"),
        ("fn", r"\A.*\n *match self \{(\s*[\w:|()\s]+ => [A-Z]\w+::\w+,)+\s*\}\Z|\A.*fn of\(", "conversion: one enum to another"),
        ("fn", r"Slot::Vacant => (\d|true|false)", "equality or conversion: a slot's case"),
        ("fn", r"\A.*fn \w+_of\((\w+): [A-Z]\w+\) -> Option<[A-Z].*\n *match \1\.", "conversion: a type to another, if it can be"),
        ("fn", r"matches!\([\w.()]+, \w+::\w+\)", "equality: one case asked by matches!"),
        ("fn", r"(\w+)\.(\w+)(\.\w+\(\))? == (\w+)\.\2\b(.|\n)*&& (\w+)\.(\w+)(\.\w+\(\))? == ", "equality: field by field"),
        ("fn", r"\A[^&]*\n(.|\n)*\b(\w+): (self|t)\.\2,(?!\n *length)", "copying: field by field"),
        ("fn", r"\A.*fn (new|blank|no_\w+)\(\) -> .*\n(?! *\w+::default\(\))|= \[Report \{", "a value that is Default"),
    ],
    6: [
        ("struct", r"\blen: usize", "a buffer with its length beside it"),
        ("struct", r"\b(place|holder|index): (Option<)?usize", "an index into another list"),
        ("struct", r"\btallies: \[|\bslots: Vec<", "a list read by computed places"),
        ("struct", r"\bowners: Vec<", "lists read by computed places, side by side"),
        ("fn", r"\A.* -> .*(\(\[[^\]]*\], usize\)|\(usize, \w+\))", "a buffer or an index with its partner as a result"),
        ("fn", r"\A.*\[u32; \w+\]", "an array filled up with 0"),
        ("fn", r"\A.*page: &mut \[u8\], at: usize.*usize", "a buffer and a place in it: (page, at)"),
        ("fn", r"\A(?!.* at: usize).*\b(page|list): &mut \[.* -> .*usize", "a buffer lent, its new length as the result"),
        ("fn", r"\A.*(&'static \[u8\]|\bword: &\[u8\])", "a word as bytes"),
        ("fn", r"for .*\{\n\s*if \w+\.number == number \{\n\s*return", "a list by number searched by hand"),
        ("fn", r"wrapping_mul\(self\.(rack\.|sizes\.)?rows\)|as usize \* (self\.)?(sizes\.)?rows", "a place computed from column and row"),
    ],
    7: [
        ("fn", r"match .*\{\n(( +[A-Z\d_].*=> (\{\s*)?(let _ = |[\w:]+\()*((self|board)\.[\w.]+\(|\w+\(.*\b(board|page)\b)(.|\n)*?){3,})\n +\}",
         "cases that each call a function"),
    ],
}


def ruled(point, every):
    for x in every:
        lines = [(x.line, x.sig), *[(n, t) for n, t in x.body if not t.strip().startswith("//")]]
        text = "\n".join(t for _, t in lines)
        for part, pattern, what in RULES.get(point, []):
            match = re.search(pattern, x.doc if part == "doc" else text, re.M) if part in ("doc", x.kind) else None
            if match:
                yield x.file, x.line if part == "doc" else lines[text[:match.start()].count("\n")][0], full(x), what


# ---- 2: twins

def passes_on(x):
    m = re.fullmatch(r"\s*(?:self\.tables\.)?(\w+)\(([\w, ]*)\)", code(x))
    return m and [p for p, _ in params(x)] == m.group(2).split(", ") and m.group(1)


def near(s, t):
    m = difflib.SequenceMatcher(None, s, t, autojunk=False)
    return min(len(s), len(t)) >= 32 and m.real_quick_ratio() > 0.88 and m.quick_ratio() > 0.88 and m.ratio() > 0.88


def twins(every):
    groups = []

    def join(a, b):
        at = [g for g in groups if a in g or b in g]
        groups[:] = [g for g in groups if g not in at] + [[*dict.fromkeys([*itertools.chain(*at), a, b])]]
    fns = [x for x in every if x.kind == "fn" and x.body and not passes_on(x)]
    shapes = {x: shape(result(x) + " " + code(x)) for x in fns}
    for a, b in itertools.combinations(fns, 2):
        s, t = shapes[a], shapes[b]
        same = s == t and (len(s) >= 12 or full(a) == full(b))
        promise = a.sig == b.sig and a.file != b.file and [c for _, c in a.clauses] == [c for _, c in b.clauses] != []
        if same or promise or near(s, t):
            join(a, b)
    for a, b in itertools.combinations([x for x in every if x.kind != "fn"], 2):
        fields = [sorted(code(x).split("\n")) for x in (a, b)]
        if a.kind == b.kind and (a.name == b.name or fields[0] == fields[1] != [""]):
            join(a, b)
    for g in groups:
        g.sort(key=lambda x: (x.file, x.line))
        yield g[0].file, g[0].line, full(g[0]), g[0].kind + " like " + ", ".join(f"{full(x)} ({x.file[7:]}:{x.line})" for x in g[1:])
    for x in every:
        if x.kind == "fn" and x.body and passes_on(x):
            yield x.file, x.line, full(x), "fn that only passes on to " + passes_on(x)


# ---- 3: loops that count by hand

def loops(every):
    for x in every:
        for k, (n, line) in enumerate(x.body):
            m = re.match(r"( *)(?:for (.*) in (.*)|while .*|loop) \{$", line) if x.kind == "fn" else None
            if m:
                end = next(j for j in range(k, len(x.body)) if x.body[j][1] == m.group(1) + "}")
                how = by_hand(m.group(2) or "", m.group(3) or "", "\n".join(t for _, t in x.body[k + 1:end]))
                if how:
                    yield x.file, n, full(x), how + ": " + line.strip(" {")


def by_hand(var, over, body):
    index = (re.findall(r"\w+", var) or ["-"])[0]
    once = re.sub(r"\s+", " ", body).strip()
    if "enumerate()" in over and index.startswith("_"):
        return "an index that is not used"
    if "enumerate()" in over and re.search(rf"(\breturn|\bSome\(| = ).*\b{index}\b", body):
        return "an index to find a place"
    if ".." in over and re.search(rf"\[{index}\b|get(_mut)?\({index}\b", body):
        return "an index into a list"
    if re.search(r"^ *[a-z]\w* \+= 1;|^ *([a-z]\w*) = \1\.wrapping_add\(1\);", body, re.M):
        return "a counter beside the loop"
    if re.fullmatch(r"\w+ = \w+\.\w+\(.*\);|(\w+ \+= [^;]*; )*\w+ \+= [^;]*;", once):
        return "a sum or a fold"
    if re.fullmatch(r"\w+\.push\(.*\)\?;", once):
        return "a list filled one by one"
    if re.fullmatch(r"if [^{]*(\{[^{}]*\}[^{}]*)?\{ (return [^;]*;|[^{}]* \+?= [^{}]*;) \}", once):
        return "a search or a choice that a chain says"
    return ""


# ---- 5: facts in three or more contracts, parameters that travel together

def fact(x, text):
    """A clause with its label left out, and types in place of the names of parameters; ' is the value afterwards."""
    text = re.sub(r"^(requires|ensures) (\w+ )?\{ (.*) \}$", r"\1 \3", text)
    names = {p: re.sub(r"&('\w+ )?|mut |<.*", "", kind) for p, kind in params(x)} | {"self": x.owner}
    text = re.sub(r"\.(old|now|entry)\b", "", text).replace(".new", "'")
    return re.sub(r"(?<![\w.])[a-z]\w*\b", lambda m: names.get(m.group(0), m.group(0)), text)


def repeated(every):
    facts, together = collections.defaultdict(list), collections.defaultdict(list)
    for x in every:
        for n, text in x.clauses:
            facts[fact(x, text)].append((x, n))
        for size in range(2, 7) if x.kind == "fn" else []:
            for some in itertools.combinations(params(x), size):
                together[some].append(x)
    for text, at in facts.items():
        if len({x for x, _ in at}) > 2:
            yield at[0][0].file, at[0][1], "fact", text + " | in " + ", ".join(dict.fromkeys(full(x) for x, _ in at))
    often = {some: xs for some, xs in together.items() if len(xs) > (2 if len(some) > 2 else 3)}
    for some, xs in often.items():
        if not any(set(some) < set(more) and len(ys) * 2 > len(xs) for more, ys in often.items()):
            yield xs[0].file, xs[0].line, "params", ", ".join(f"{p}: {k}" for p, k in some) + " | in " + ", ".join(dict.fromkeys(full(x) for x in xs))


# ---- 8: answers and helper lemmas

def proofs(src):
    crates = collections.defaultdict(lambda: [0, 0, 0, 0, 0])
    for file, text in src.items():
        c, names = crates[file.split("/")[1]], len(re.findall(r"^ *(?:abbrev |unfoldable )?pub \S+ :", text, re.M))
        if file.endswith(("/Answers.antt", "/Invariants.antt")):
            c[file.endswith("/Invariants.antt")] += names
        elif not file.endswith("/proofs/Lib.antt"):
            c[2:] = c[2] + 1, c[3] + names, c[4] + text.count("\n")
    for crate, (a, i, f, names, lines) in sorted(crates.items()):
        print(f"crates/{crate}/proofs: {a} answers, {i} invariants, {f} helper files with {names} public names in {lines} lines")
    return sum(a + i + f for a, i, f, _, _ in crates.values())


def places(point, src, every):
    """The places of a point: (file, line, name, what), each once for all that is said of it."""
    found = [*ruled(point, every), *{2: twins, 3: loops, 5: repeated}.get(point, lambda _: [])(every)]
    none = []
    for line in (TOP / "tools/places.txt").read_text().splitlines():
        n, sign, file, text, what = line.split("\t") if line[:1].isdigit() else ("0", "", "", "", "")
        file = "crates/" + file
        if n == str(point) and sign == "-":
            none.append((file, text))
        elif n == str(point) and text in src.get(file, ""):
            at = src[file][:src[file].index(text)].count("\n") + 1
            found.append((file, at, where(every, file, at), what))
    once = {}
    for file, n, name, what in sorted(found):
        if not any(file == f and f"{name}: {what}".startswith(t) for f, t in none):
            once.setdefault((file, name, what), n)
    return sorted((file, n, name, what) for (file, name, what), n in once.items())


def main(words):
    commit = words[words.index("--at") + 1] if "--at" in words else None
    src = read_files(commit, "src", ".rt")
    every = [x for file, text in src.items() for x in items_of(file, text)]
    for point in [int(w) for w in words[:1] if w.isdigit()] or range(1, 9):
        if point == 8:
            count = proofs(read_files(commit, "proofs", ".antt"))
        else:
            found = places(point, src, every)
            count = len(found)
            for file, n, name, what in found:
                print(f"{file}:{n}: {name}: {what}")
        print(f"point {point}: {count} places")


if __name__ == "__main__":
    main(sys.argv[1:])
