#!/usr/bin/env python3
"""places.py [COMMIT]: the places of docs/DESIGN-PASS.md in crates/*/src, counted by rule; of the work tree, or of a commit.

A rule reads the text alone, so it finds a candidate and not a verdict; the page says what became of each."""
import collections
import re
import subprocess
import sys


def sources(commit):
    if commit is None:
        listed = subprocess.run(["git", "ls-files", "-co", "--exclude-standard", "crates/*/src/*.rt"], capture_output=True, text=True, check=True).stdout.split()
        for path in sorted(listed):
            try:
                yield path, open(path, encoding="utf-8").read()
            except FileNotFoundError:
                continue
    else:
        listed = subprocess.run(["git", "ls-tree", "-r", "--name-only", commit, "crates"], capture_output=True, text=True, check=True).stdout.split()
        for path in listed:
            if re.fullmatch(r"crates/[^/]+/src/.*\.rt", path):
                yield path, subprocess.run(["git", "show", f"{commit}:{path}"], capture_output=True, text=True, check=True).stdout


class Item:
    """A function, enum or struct: where it begins, its head up to the body, and its body."""

    def __init__(self, path, line, kind, name, text):
        self.path, self.line, self.kind, self.name, self.text = path, line, kind, name, text
        self.place = f"{path}:{line} {name}"
        lines = text.split("\n")
        opens = next((k for k, t in enumerate(lines) if re.search(r"\{$", t) and not re.match(r"\s*(requires|ensures)\b", t)), 0)
        self.head = "\n".join(lines[:opens + 1])
        self.body = "\n".join(lines[opens + 1:-1])


def items(path, text):
    lines = text.split("\n")
    k = 0
    while k < len(lines):
        m = re.match(r'( *)(?:pub(?:\(\w+\))? )?(?:extern "C" )?(fn|enum|struct) (\w+)', lines[k])
        opens = k
        while m and not re.search(r"[;{]$|^ *(requires|ensures)\b", lines[opens]) and opens + 1 < len(lines):
            opens += 1
        # A method of a trait that has no body is no place.
        if m and not (m[2] == "fn" and (lines[opens].endswith(";") or re.search(r"\};$", lines[opens]))):
            end = next((e for e in range(k, len(lines)) if lines[e] == m[1] + "}"), k)
            yield Item(path, k + 1, m[2], m[3], "\n".join(lines[k:end + 1]))
        k += 1


def shape(body):
    """The body with its names and numbers replaced by their first occurrence."""
    seen = {}
    keep = {"let", "mut", "if", "else", "return", "match", "while", "for", "in", "loop", "break", "true", "false", "as", "fn"}

    def place(m):
        word = m[0]
        if word in keep:
            return word
        return seen.setdefault(word, f"#{len(seen)}")

    return re.sub(r'b?"[^"]*"|\b\w+\b', place, re.sub(r"//.*", "", body))


def variants(enum):
    return re.findall(r"^    (\w+)(.*)$", enum.body, re.M)


def main():
    commit = sys.argv[1] if len(sys.argv) > 1 else None
    found = collections.OrderedDict((rule, []) for rule in (
        "1a an enum of two variants of which at least one holds a value",
        "1b a variant for a refusal or a bad input beside others that hold values",
        "1c a refusal or verdict that is a number: `-> u8` of a judging function, `&mut u8`, a number refused",
        "1d a flag with a value beside it",
        "1e a match on an index or number that stands for a name or a kind",
        "2 functions, or enums, of one shape",
        "3 a loop that is no `for`",
        "4a a match all of whose arms are true and false",
        "4b a copy field by field, or by a changed local",
        "4c a match from a kind to its number or to its word",
        "5a parameters that stand together in three or more functions of a crate",
        "5b a fact that stands in the contracts of three or more functions of a crate",
        "6 an array, and a count beside it",
        "7 function pointers and tables of functions",
    ))
    rule = {r.split()[0]: r for r in found}
    shapes = collections.defaultdict(list)
    together = collections.defaultdict(list)
    facts = collections.defaultdict(list)
    for path, text in sources(commit):
        crate = path.split("/")[1]
        for it in items(path, text):
            if it.kind == "enum":
                vs = variants(it)
                holds = [v for v in vs if re.match(r"[({]| \{", v[1])]
                if len(vs) == 2 and holds:
                    found[rule["1a"]].append(it.place)
                elif holds and any(v[0] in ("Refused", "Bad", "Other", "Failed") for v in vs):
                    found[rule["1b"]].append(it.place)
                shapes[crate, "enum", shape(it.body)].append(it)
            elif it.kind == "struct":
                fields = re.findall(r"^    (?:pub(?:\(\w+\))? )?(\w+): (.*),$", it.body, re.M)
                if any(f == ("seen", "bool") or f == ("open", "bool") for f in fields):
                    found[rule["1d"]].append(it.place)
            else:
                if re.search(r"refusal|refused", it.name) and re.search(r"-> u(8|32)\b", it.head) or "&mut u8" in it.head:
                    found[rule["1c"]].append(it.place)
                for m in re.finditer(r"match [^{]*\bplace\(|return Outcome \{[^}]*Refused", it.body):
                    found[rule["1e" if "place" in m[0] else "1c"]].append(it.place)
                if len(it.body) > 60:
                    shapes["", "fn", shape(it.body)].append(it)
                for m in re.finditer(r"^ *(while|let \w+ = loop|loop)\b", it.body, re.M):
                    found[rule["3"]].append(it.place)
                arms = re.findall(r"=> (.*?),?$", it.body, re.M)
                if it.body.strip().startswith("match") and arms and all(a in ("true", "false") or re.fullmatch(r"!?\w+|\w+ == \w+", a) for a in arms) and "-> bool" in it.head:
                    found[rule["4a"]].append(it.place)
                if re.search(r"let mut (\w+) = (\w+);\n\s*\1\.\w+(\[\w+\])? = .*;\n(\s*\})?\s*\1$", it.body.strip() + "") or len(re.findall(r"^\s*(\w+)(: \w+\.\1)?,$", it.body, re.M)) >= 3 and re.search(r"\blet (\w+) = \w+\.\1;", it.body):
                    found[rule["4b"]].append(it.place)
                if it.body.strip().startswith("match") and len(arms) >= 2 and (all(re.fullmatch(r"\d+", a) for a in arms) or all(re.search(r'\(text, at, b"', a) for a in arms)):
                    found[rule["4c"]].append(it.place)
                head = re.sub(r"\s+", " ", it.head)
                m = re.search(r"fn \w+(?:<[^(]*>)?\((.*?)\)(?: ->| requires| ensures| \{)", head)
                params = [p.strip() for p in re.split(r", (?=\w+:|mut \w+:)", m[1].rstrip(", "))] if m and m[1] else []
                params = [re.sub(r"^mut ", "", p) for p in params if ":" in p and not p.startswith("rt:")]
                for a in range(len(params)):
                    for b in range(a + 1, len(params)):
                        together[crate, params[a], params[b]].append(it)
                for m in re.finditer(r"^ +(?:requires|ensures)(?: \w+)? \{ (.*) \}$", it.head, re.M):
                    for fact in re.split(r" × ", m[1]):
                        fact = fact.strip("() ")
                        if not re.match(r"result(\.now)? ≡", fact):
                            key = re.sub(r"\.(old|new|now)\b", "", fact)
                            facts[crate, key].append(it)
                for m in re.finditer(r"let mut (\w+) = \[[^\n]*;", it.body):
                    if re.search(rf"\b{m[1]}\[(\w+)\] = ", it.body) or re.search(rf"let \w+ = [\w:]+\([^;]*&mut {m[1]}", it.body):
                        found[rule["6"]].append(f"{it.place} `{m[1]}`")
                if re.search(r"\bfn\(", it.text):
                    found[rule["7"]].append(it.place)
    for (_, kind, _), group in shapes.items():
        if len(group) > 1:
            found[rule["2"]].append(" = ".join(it.place for it in group))
    for (crate, a, b), group in together.items():
        if len(group) >= 3:
            found[rule["5a"]].append(f"{crate}: ({a}, {b}) in {len(group)}")
    for (crate, fact), group in facts.items():
        if len({it.place for it in group}) >= 3:
            found[rule["5b"]].append(f"{crate}: `{fact}` in {len(group)}")
    for r, places in found.items():
        print(f"{r}: {len(places)}")
        for p in places:
            print(f"    {p}")


if __name__ == "__main__":
    main()
