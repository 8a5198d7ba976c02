#!/usr/bin/env python3
"""Brings the names of this repository's own definitions, lemmas, fields and variables of specs/ and proofs/, and of
ghost members, to one spelling: words in snake case, facts and types in camel case.

usage: turn_names.py [--check]     at the top of the repository; --check prints the renamings and writes nothing

Names of the toolchain's libraries, of Rust items, and those that the check makes of the code (goals, steps, a loop's
names) stay as they are. Two names of one file that would fall together stop it before anything is written.
"""
import collections
import os
import re
import sys

TOKEN = re.compile(r"[A-Za-z_][A-Za-z0-9_'\u00b7\u2032-]*")
TURNS = re.compile(r"[A-Za-z0-9]-[A-Za-z0-9]|[a-z0-9][A-Z]")
SIGNATURE = re.compile(
    r"^(\s*)((?:unfoldable |abbrev )?(?:pub )?(?:abbrev |unfoldable )?)(record |data )?([A-Za-z_][^\s(){};,.]*)"
    r"((?:\s*[({][^()]*[)}])*)\s*:\s(.*)$")


# Names that would be those of a Rust function of the same module, or of another definition, once they are turned.
OTHERWISE = {
    "levelRows": "rows_of_level", "edgeRows": "rows_of_edge", "firstLive": "first_live_rule",
    "worked-rules": "worked_rule_list", "worked-headers": "worked_header_list", "half-rules": "half_rule_list",
    "first-where": "first_as_where",
}


def snake(name):
    name = re.sub(r"([a-z0-9])([A-Z])", lambda m: m.group(1) + "_" + m.group(2).lower(), name)
    return name.replace("-", "_")


def camel(name):
    return "".join(part[:1].upper() + part[1:] for part in re.split("-", name))


def turned(name):
    if name in OTHERWISE:
        return OTHERWISE[name]
    if not re.fullmatch(r"[A-Za-z][A-Za-z0-9_'\u2032-]*", name):
        return name
    if name[0].isupper():
        return camel(name) if "-" in name else name
    return snake(name) if TURNS.search(name) else name


def files():
    for top in ("specs", "proofs", "src"):
        for crate in sorted(os.listdir("crates")):
            for folder, dirs, names in os.walk(os.path.join("crates", crate, top)):
                for n in sorted(names):
                    if n.endswith((".antt", ".rt")):
                        yield os.path.join(folder, n)


IMPORT = re.compile(r"(?:ghost )?use ([^\s{};]+)\.\{([^}]*)\}")
MODULE = re.compile(r"^(?:ghost )?use ([A-Za-z][^\s{};]*?)(?: as (\w+))?;?\s*$", re.M)


def own(path):
    """Whether a module is written in this repository, and not by the check."""
    parts = path.split(".")
    return parts[0] == "Rattle" and parts[1] in CRATES and parts[2] in ("specs", "proofs") \
        and "declared" not in parts and len(parts) == 4


def imports(text):
    """Names of a file that come from elsewhere, and its names for modules of ours."""
    foreign, ours, modules = set(), set(), set()
    for m in IMPORT.finditer(text):
        mine = own(m.group(1))
        for item in m.group(2).split(","):
            words = item.split()
            if not words:
                continue
            (ours if mine else foreign).add(words[0])
            if len(words) == 3:
                ours.add(words[2])
    for m in MODULE.finditer(text):
        if own(m.group(1)):
            modules.add(m.group(2) or m.group(1).split(".")[-1])
    return foreign, ours, modules


def fields():
    """Fields of the repository's own records."""
    found = set()
    for path in files():
        if path.endswith(".antt") and len(path.split("/")) == 4:
            inside = False
            for line in open(path, encoding="utf-8"):
                if re.match(r"(?:pub )?(?:record|data) ", line):
                    inside = True
                elif line.strip() and not line.startswith(" "):
                    inside = False
                m = re.match(r"\s+(?:pub )?([A-Za-z_][^\s(){};,.:]*)\s*:\s", line)
                if inside and m:
                    found.add(m.group(1))
    return found


def members():
    """Ghost members of the repository's traits."""
    found = set()
    for path in files():
        if path.endswith(".rt"):
            found |= set(re.findall(r"^\s+ghost (\w+)\s*[:=]", open(path, encoding="utf-8").read(), re.M))
    return found


def ghost_spans(text):
    """Where a source file has text of contracts: ghost lines, and clauses in their braces."""
    spans = []
    for m in re.finditer(r"^ghost use [^;]*;", text, re.M):
        spans.append((m.start(), m.end()))
    for m in re.finditer(r"^\s+(?:ghost|requires|ensures|ghost invariant)\b[^{;]*\{", text, re.M):
        depth, i = 1, m.end()
        while depth:
            depth += {"{": 1, "}": -1}.get(text[i], 0)
            i += 1
        spans.append((m.start(), i))
    return spans


def turn(path, text, field_names, member_names):
    if path == "crates/sheet/proofs/Taking.antt" and "digitValue" in text:
        text = re.sub(r"^(pub )?digit_value(?= )|(?<=[(,] )digit_value(?= )", lambda m: (m.group(1) or "") + "digit_value_small", text, flags=re.M)
        text = text.replace("{digit_value as digitValue}", "{digit_value}").replace("digitValue", "digit_value")
    foreign, ours, modules = imports(text)
    kept = set(re.findall(r"^pub ([^\s:]+) :\s+(?:\w+ )*(?:goal|need|rules?|law)\.\1(?![\w-])", text, re.M))
    kept |= set(re.findall(r"^(?:abbrev )?pub ([^\s:]+) : .*\bgoal\.\1(?![\w-])", text, re.M))
    kept |= set(re.findall(r"\bgoal\.([\w'-]+)", text))
    rust = path.endswith(".rt")
    spans = ghost_spans(text) if rust else None
    done, out, last = {}, [], 0
    for m in TOKEN.finditer(text):
        name = m.group(0)
        new = turned(name)
        if new == name:
            continue
        start = m.start()
        if rust and not any(a <= start < b for a, b in spans):
            continue
        if text[start - 1:start].isalnum() or text[start - 1:start] == "+" or text[m.end():m.end() + 1] == "+":
            continue
        if re.match(r"(then|else|if|loop|after-loop)-", name) and name not in ours and not re.search(
                r"^ *(pub |abbrev pub )?" + re.escape(name) + " :", text, re.M):
            continue
        line = text[text.rfind("\n", 0, start) + 1:start]
        if re.search(r"--|//", line):
            continue
        if '"' in line and line.count('"') % 2:
            continue
        before = text[start - 1:start]
        if before == ".":
            owner = re.search(r"([\w']+)\.$", text[:start])
            inside = owner and owner.group(1) in modules
            if not (inside or name in field_names or name in member_names and
                    (rust or re.search(r"\.(?:\w+)\.$", text[:start]))):
                continue
        elif name in foreign or name in kept:
            continue
        elif rust and name not in ours and name not in member_names:
            continue
        elif re.search(r"[\u2192\u2261\u25cc\u2119]$", text[:start]):
            continue
        after = text[m.end():m.end() + 1]
        if after and after in "\u2192\u2261\u2264\u25cc":
            continue
        done[name] = new
        out.append(text[last:start] + new)
        last = m.end()
    out.append(text[last:])
    text_new = re.sub(r"\b(\w+) as \1\b", r"\1", "".join(out))
    fell = collections.defaultdict(set)
    for a, b in done.items():
        fell[b].add(a)
    words = set(TOKEN.findall(text))
    clash = [(b, a) for b, a in fell.items() if len(a) > 1 or b in words]
    return text_new, done, clash


def main():
    check = "--check" in sys.argv
    global CRATES
    CRATES = set(os.listdir("crates"))
    field_names, member_names = fields(), members()
    writes, everything, clashes = {}, {}, []
    for path in files():
        text = open(path, encoding="utf-8").read()
        new, done, clash = turn(path, text, field_names, member_names)
        everything.update(done)
        clashes += [(path, c) for c in clash]
        if new != text:
            writes[path] = new
    if check:
        for a, b in sorted(everything.items()):
            print(a, b)
    for path, (b, a) in clashes:
        print(f"clash: {path}: {sorted(a)} and {b}", file=sys.stderr)
    if check or clashes and "--clash" not in sys.argv:
        return 1 if clashes else 0
    for path, new in writes.items():
        open(path, "w", encoding="utf-8").write(new)
    print(f"{len(writes)} files, {len(everything)} names")
    return 0


if __name__ == "__main__":
    raise SystemExit(main())
