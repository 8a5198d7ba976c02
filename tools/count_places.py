#!/usr/bin/env python3
"""Lists the places in crates/*/src that may be plainer in a newer form, by the kinds of docs/DESIGN-PASS.md.

Usage: python3 tools/count_places.py [FOLDER]      FOLDER: the top of a checkout, by default this one.
Prints a line for each place, and a count for each kind.
"""
import difflib
import glob
import os
import re
import sys
from collections import Counter, defaultdict

ROOT = sys.argv[1] if len(sys.argv) > 1 else os.path.join(os.path.dirname(__file__), "..")


def sources():
    for path in sorted(glob.glob(os.path.join(ROOT, "crates/*/src/**/*.rt"), recursive=True)):
        with open(path, encoding="utf-8") as f:
            yield os.path.relpath(path, ROOT), f.read().split("\n")


def by_line(pattern):
    found = []
    for path, lines in sources():
        for i, line in enumerate(lines, 1):
            if re.search(pattern, line.split("//")[0]):
                found.append(f"{path}:{i}: {line.strip()}")
    return found


def functions():
    """Each function: (path, line, name, parameters, clauses, body)."""
    for path, lines in sources():
        i = 0
        while i < len(lines):
            m = re.match(r"\s*(?:pub(?:\(crate\))? )?fn (\w+)", lines[i])
            if not m:
                i += 1
                continue
            start, indent = i, len(lines[i]) - len(lines[i].lstrip())
            begun = False  # whether the body has begun; a method that only stands in a trait ends with a semicolon
            while i < len(lines) and lines[i] != " " * indent + "}":
                begun = begun or lines[i] == " " * indent + "{" or lines[i].endswith(") {") or bool(re.search(r"> .* \{$|-> \S+ \{$", lines[i]))
                if lines[i].rstrip().endswith("{}") or (not begun and lines[i].endswith(";")):
                    break
                i += 1
            text = lines[start:i + 1]
            clauses = [s.strip() for s in text if re.match(r"\s*(requires|ensures)\b", s)]
            whole = "\n".join(text)
            head = whole.split("ensures")[0].split("requires")[0]
            inside = head[head.find("(") + 1:]
            params = len(re.findall(r"\b\w+: ", re.split(r"->|\) \{|\n\s*\{|\)\s*\n", inside)[0]))
            yield path, start + 1, m.group(1), params, clauses, "\n".join(s for s in text if s.strip() not in clauses)
            i += 1


def twins():
    keep = set("fn let mut for in if else match while return self Some None Ok Err as pub crate".split())
    todo = []
    for path, line, name, _, _, body in functions():
        tokens = re.findall(r"\w+|[^\w\s]", body)
        if "test" in path or len(tokens) < 25:
            continue
        todo.append((path, line, name, [t if t in keep or not t[0].isalpha() else "x" for t in tokens]))
    found = []
    for i, a in enumerate(todo):
        for b in todo[i + 1:]:
            r = difflib.SequenceMatcher(None, a[3], b[3], autojunk=False).ratio()
            if r >= 0.9:
                found.append(f"{a[0]}:{a[1]} {a[2]} ~ {b[0]}:{b[1]} {b[2]} ({r:.2f})")
    return found


def repeated_clauses():
    where = defaultdict(set)
    for path, line, name, _, clauses, _ in functions():
        for c in clauses:
            text = c[c.find("{"):]
            if len(text) > 12:
                where[path.split("/")[1], text].add((path, line, name))
    return [f"{crate}: {text} in {len(w)} functions" for (crate, text), w in sorted(where.items()) if len(w) >= 3]


def many_parameters():
    return [f"{p}:{l} {n}: {k} parameters" for p, l, n, k, _, _ in functions() if k >= 5]


def nested_pairs():
    return by_line(r"^\s*(requires|ensures)\b.*\) × ")


def answers():
    found = []
    for path in sorted(glob.glob(os.path.join(ROOT, "crates/*/proofs/**/*.antt"), recursive=True)):
        if os.path.basename(path) in ("Answers.antt", "Proof.antt"):
            with open(path, encoding="utf-8") as f:
                n = len(re.findall(r"^pub [\w-]+ :", f.read(), re.M))
            found.append(f"{os.path.relpath(path, ROOT)}: {n} answers")
    return found


KINDS = [
    ("1 own enums", lambda: by_line(r"^\s*(pub(\(crate\))? )?enum ")),
    ("1 flags in structs, and bool answers of a call that does something",
     lambda: by_line(r"^\s+(pub(\(crate\))? )?\w+: bool,|fn .*&mut .*-> bool|level: FIELDS,")),
    ("1 numbers of refusals", lambda: by_line(r"fn number\((&?self)\) -> u8")),
    ("2 functions that read alike", twins),
    ("3 while, and for over a range", lambda: by_line(r"^\s*(while |for \w+ in [^{]*\.\.)")),
    ("3 indices counted by hand", lambda: by_line(r"wrapping_add\(1\)|\.enumerate\(\)| \+= 1;| -= 1;")),
    ("4 equality, conversion and printing by hand",
     lambda: by_line(r"fn (same\w*|is|copy_into|state_name|reason|tell\w*|told|say_\w+|class_of)\b|impl (From|fmt::Display)")),
    ("4 a match that only wraps its values", lambda: by_line(r"Some\(\w+\) => (Some|Ok|Err)\(|None => (None|Err\(.*\)),")),
    ("5 clauses that three or more functions share", repeated_clauses),
    ("5 functions of five parameters or more", many_parameters),
    ("5 facts joined in one clause", nested_pairs),
    ("6 arrays of a fixed length", lambda: by_line(r"^\s+(pub(\(crate\))? )?\w+: \[.*; [A-Z0-9_]+\],|const \w+: \[")),
    ("6 lengths beside buffers", lambda: by_line(r"^\s+(pub )?(len|count|used|at|held): (usize|u16),")),
    ("7 a flag that picks what is done", lambda: by_line(r"\w+: bool[,)]")),
    ("8 files of answers", answers),
]

totals = Counter()
for kind, find in KINDS:
    found = find()
    totals[kind] = len(found)
    print(f"== {kind}: {len(found)}")
    for line in found:
        print("  " + line)
print("== counts")
for kind, n in totals.items():
    print(f"{n:4}  {kind}")
