#!/usr/bin/env python3
"""Brings the repository's own definitions and lemmas to today's spelling: words in snake case, joined by `_`.

usage: python3 tools/respell.py            at the top, once, on what port.py left
       python3 tools/respell.py --list     prints old and new names, and writes nothing
       python3 tools/respell.py --clash    prints new names that something else already has

Renamed is what a file of specs/ or proofs/ declares: a definition, a lemma, a record's field, a constructor. Types and facts (a capital first)
and names with a sign of their own keep their spelling; functions of src/, strings and what programs read or write are not touched. In a
proof that follows a function's steps, what stands behind a dot is a step or a field of the checker's and stays, unless a record here has it.
"""

import os
import re
import subprocess
import sys

# what one rule does not spell well, or where two names would fall together
GIVEN = {
    "eqE": "eq_edge", "ltE": "lt_edge", "memberE": "edge_in", "meetE": "meet_edges", "turnE": "turn_of_edge", "wayE": "way_of_edge", "pE": "point_edge",
    "eqP": "eq_point", "ltP": "lt_point", "maxP": "max_point", "minP": "min_point", "nearP": "near_point",
    "eqR": "eq_record", "holdsR": "holds_rule", "eqZ": "eq_int", "ltZ": "lt_int", "lt-LeP": "lt_LeP", "getD": "get_or", "zeroZ": "zero_int", "addC": "add_const", "runW": "run_word", "sameB": "same_bit", "updH": "upd_head",
    "straightLine": "is_straight_line",
}
TOKEN = re.compile(r"[^\s(){}\[\],;.:«»]+|:|\.|«[^»]*»")
NAME = re.compile(r"^[a-z_][A-Za-z0-9_'₀-₉-]*$")


def files(top, ends):
    for folder, dirs, names in os.walk(os.path.join(top, "crates")):
        dirs[:] = sorted(d for d in dirs if d != "out")
        for n in sorted(names):
            if n.endswith(ends):
                yield os.path.join(folder, n)


def read(path):
    with open(path, encoding="utf-8") as f:
        return f.read()


DECLARED = re.compile(r"^( *)(?:(?:abbrev|unfoldable|opaque|private) )*(?:pub )?([^\s(){}\[\]:.,;]+)(?: [^\s:][^:]*)? : (.*)$")


def declared(path, fields):
    """The names that a file declares. Of a function's proof those of its goals are left out: the checker gives them."""
    walk = path.endswith("/Proof.antt")
    out = set()
    record = False
    for line in read(path).split("\n"):
        if re.match(r"^\s*(pub )?record \S+.* where$", line):
            record = True
            continue
        if line and not line.startswith(" "):
            record = False
        m = DECLARED.match(line)
        if not m or line.lstrip().startswith(("--", "let ", "in ", "use ", "λ", "elim ")):
            continue
        indent, name, kind = m.groups()
        if not NAME.match(name) or name in ("pub", "let", "in", "use", "where", "both", "rw"):
            continue
        if walk and re.match(r"(?:tie\.(?:Need|invariant|decreases)|\{M : Type 1\})", kind):
            continue
        out.add(name)
        if record and indent:
            fields.add(name)
    return out


def snake(name):
    for old, new in GIVEN.items():
        if name == old:
            return new
        if name.startswith(old + "-"):
            return new + "_" + snake(name[len(old) + 1:])
        if name.endswith("-" + old):
            return snake(name[:-len(old) - 1]) + "_" + new
    name = re.sub(r"(?<=[a-z0-9])([A-Z])", lambda m: "_" + m.group(1).lower(), name)
    return name.replace("-", "_")


def pieces(text):
    """The text cut in tokens and what lies between them."""
    at = 0
    for m in TOKEN.finditer(text):
        yield text[at:m.start()], m.group(0)
        at = m.end()
    yield text[at:], None


def tokens(text):
    return {t for line in text.split("\n") for _, t in pieces(code(line)[0]) if t}


def code(line):
    """A line's part before its comment, and the comment."""
    m = re.search(r"(?:^|(?<=\s))--(?=\s|$)", line)
    return (line[:m.start()], line[m.start():]) if m else (line, "")


def table(top):
    own, fields, seen, imported = set(), set(), set(), set()
    for p in files(top, ".antt"):
        own |= declared(p, fields)
        t = read(p)
        seen |= tokens(t)
        for m in re.finditer(r"(?m)^use (?!Rattle\.(?!std\b))[^{]*\{([^}]*)\}", t):
            imported |= {w.strip().split(" ")[0] for w in m.group(1).split(",")}
    for p in files(top, ".rt"):
        for m in re.finditer(r"(?m)^\s*ghost use [^{]*\{([^}]*)\}", read(p)):
            seen |= {w.strip() for w in m.group(1).split(",")}
    functions = {m for p in files(top, ".rt") for m in re.findall(r"\bfn (\w+)", read(p))}
    words = {snake(n) for n in own if "-" not in n}
    out, back = {}, {}
    for name in sorted(own):
        if name in imported:
            continue
        new = snake(name)
        if new == name:
            continue
        if "-" in name and (new in words or new in functions):
            new += "_lem"
        out[name] = new
        back.setdefault(new, []).append(name)
    clash = []
    for new, olds in sorted(back.items()):
        if len(olds) > 1 or new in seen or new in imported:
            clash.append((new, olds, "seen" if new in seen else ""))
    return out, fields, clash, imported & {n for n in own if snake(n) != n}


def respell(line, out, fields, walk):
    text, comment = code(line)
    made, last, path = [], "", False
    for gap, t in pieces(text):
        made.append(gap)
        if t is None:
            break
        if gap:
            path = False
        dotted = last == "." and not gap
        if t == "Rattle" and not dotted:
            path = True
        if t in out and not (walk and dotted and not path and t not in fields):
            made.append(out[t])
        else:
            made.append(t)
        last = t
    return "".join(made) + ticks(comment, out)


def ticks(text, out):
    """What stands in backticks in a comment, turned."""
    return re.sub(r"`([^`]*)`", lambda m: "`" + "".join(g + (out.get(t, t) if t else "") for g, t in pieces(m.group(1))) + "`", text)


def clauses(text, out):
    """In code only what a clause, a `ghost use` or backticks in a comment say is turned."""
    made, depth = [], 0
    for line in text.split("\n"):
        if depth or re.match(r"\s*(ghost |requires\b|ensures\b)", line):
            depth += line.count("{") - line.count("}")
            made.append(respell(line.replace("--", "\0"), out, set(), False).replace("\0", "--"))
        elif "//" in line:
            at = line.index("//")
            made.append(line[:at] + ticks(line[at:], out))
        else:
            made.append(line)
    return "\n".join(made)


def main():
    top = os.getcwd()
    out, fields, clash, both = table(top)
    if "--list" in sys.argv:
        for o, n in sorted(out.items()):
            print(o, n)
        return
    if "--clash" in sys.argv:
        for c in clash:
            print(*c)
        print("own and imported:", *sorted(both))
        return
    for p in files(top, ".antt"):
        old = read(p)
        new = "\n".join(respell(l, out, fields, p.endswith("/Proof.antt")) for l in old.split("\n"))
        if new != old:
            open(p, "w", encoding="utf-8").write(new)
    for p in files(top, ".rt"):
        old = read(p)
        new = clauses(old, out)
        if new != old:
            open(p, "w", encoding="utf-8").write(new)
    for crate in sorted(os.listdir(os.path.join(top, "crates"))):
        subprocess.run(["rt", "fmt"], cwd=os.path.join(top, "crates", crate), stdout=subprocess.DEVNULL, stderr=subprocess.DEVNULL)


main()
