#!/usr/bin/env python3
"""Spells the repository's own definitions and lemmas as Rattle does: words in snake case, types in camel case.

usage: python3 tools/spelling.py [--list]      at the top of the repository, after the kit's port.py

It goes by names as they stand between delimiters, in .antt files, in the clauses and comments of .rt files and in the
edits of must-fail/. A name that a file imports from the kit stays there. Functions, strings, inputs and outputs keep
their names. A single capital letter that is a document's letter for a quantity stays (E, F, G, S, T, X). With --list
nothing is written: the new names are printed, and each pair that would fall together.
"""

import collections
import os
import re
import sys

# what stands between two names of antt
DELIMITERS = r"\s(){}\[\];,.\"⌜⌝"
NAME = re.compile(rf"[^{DELIMITERS}]+")
HEAD = re.compile(rf"^(\s*)((?:abbrev |unfoldable |pub |data |record )*)([^{DELIMITERS}:=]+(?: [^{DELIMITERS}:=]+)*)((?:\s+[({{].*?[)}}])*)\s*:\s(.*)$")
USE = re.compile(r"^\s*(?:pub )?(?:ghost )?use ([^\s{;]+?)(?:\.?\{(.*)\})?(?: as (\S+?))?;?\s*$")


# a lemma that would bear the name of the definition that it speaks of, and a definition that would bear a field's name
OTHERWISE = {
    "after-tests": "after_tests_law",
    "at_edge": "at_edge_law",
    "due_below": "due_below_law",
    "end-put": "end_put_law",
    "first-in": "first_in_law",
    "frame-told": "frame_told_law",
    "fresh-group": "fresh_group_law",
    "fresh-stream": "fresh_stream_law",
    "group-taken": "group_taken_law",
    "group-told": "group_told_law",
    "group_at": "group_at_law",
    "has_room": "has_room_law",
    "is_within": "is_within_law",
    "judged-at": "judged_there",
    "line-fits": "fitting_line",
    "line-room": "line_room_is",
    "lists-fit": "fitting_lists",
    "mark-width": "mark_width_law",
    "may-end": "may_end_law",
    "moment-of": "moment_of_law",
    "no_stream": "no_stream_is",
    "not_entered": "not_entered_is",
    "note-number": "note_number_law",
    "note-put": "note_put_law",
    "own_line": "own_line_law",
    "put-back": "put_back_law",
    "setUp": "setting_up",
    "smallest-below": "smallest_below_law",
    "stream-taken": "stream_taken_law",
    "stream-told": "stream_told_law",
    "stream_at": "stream_at_law",
    "three-judged": "three_judged_is",
    "turn-made": "turn_made_law",
    "written-values": "written_values_is",
}


def files(ending):
    for folder, dirs, names in os.walk("crates"):
        dirs[:] = sorted(d for d in dirs if d != "out")
        for name in sorted(names):
            if name.endswith(ending):
                yield os.path.join(folder, name)


def words(name):
    """The words of a name in camel case, or with hyphens or underscores between."""
    out = []
    for part in re.split(r"[-_]", name):
        prime = re.search(r"[′']*$", part).group(0)
        core = part[: len(part) - len(prime)] if prime else part
        pieces = re.findall(r"[A-Z]+(?![a-z])|[A-Z]?[^A-Z]+|[A-Z]", core) or [core]
        pieces[-1] += prime
        out += pieces
    return [w for w in out if w]


def snake(name):
    out = words(name)
    return "_".join([out[0] if re.fullmatch(r"[EFGSTX]", out[0]) else out[0].lower()] + [w.lower() for w in out[1:]])


def camel(name):
    return "".join(w[0].upper() + w[1:] for w in words(name))


def declared(path, crates):
    """The names that a file declares, and whether each is a type."""
    walked = os.path.basename(path) == "Proof.antt"
    with open(path, encoding="utf-8") as f:
        lines = f.read().split("\n")
    for i, line in enumerate(lines):
        if line.lstrip().startswith("--"):
            continue
        m = HEAD.match(line)
        if not m:
            continue
        indent, marks, names, _, rest = m.groups()
        if re.match(r"(use|module|where|let|in|elim|pub mod|mod|ghost|record \{)\b", names):
            continue
        signature = rest
        for more in lines[i + 1 :]:
            if not more.startswith(indent + "  ") or HEAD.match(more):
                break
            signature += " " + more.strip()
        if walked and re.match(r"tie\.|statement\b|\{M : Type 1\}", signature):
            continue
        is_type = bool(re.search(r"(^|→ |: )Type \d$", signature.strip())) or "data" in marks or "record" in marks
        for name in names.split(" "):
            yield name, is_type


def imported(path, ours):
    """The names that a file takes from the kit and not from this repository, and its aliases of ours."""
    theirs, aliases = set(), {}
    with open(path, encoding="utf-8") as f:
        for line in f:
            m = USE.match(line)
            if not m or m.group(2) is None:
                continue
            root = m.group(1).split(".")
            own = root[0] == "Rattle" and len(root) > 1 and root[1] in ours
            generated = own and "declared" in root
            for item in m.group(2).split(","):
                parts = item.strip().split(" as ")
                if own and not generated:
                    if len(parts) == 2:
                        aliases[parts[1].strip()] = parts[0].strip()
                else:
                    theirs.update(p.strip() for p in parts)
    return theirs, aliases


def stands(name, text, path):
    """Whether a name stands in a file by itself: not as a part of a path and, in code, as a parameter or a variable."""
    if path.endswith(".antt"):
        text = "\n".join(line for line in text.split("\n") if not re.match(r"\s*(--|(pub )?use |(pub )?mod )", line))
        return bool(re.search(rf"(?:^|[{DELIMITERS.replace('.', '')}]){re.escape(name)}(?:$|[{DELIMITERS.replace('.', '')}])", text, re.M))
    return bool(re.search(rf"(?:let (?:mut )?|[(,] ?(?:mut )?){re.escape(name)}\b(?=:| =)", text))


def main():
    ours = {c for c in os.listdir("crates") if os.path.isdir(os.path.join("crates", c))}
    types, terms = set(), set()
    for path in files(".antt"):
        for name, is_type in declared(path, ours):
            (types if is_type else terms).add(name)
    aliases = {}
    for path in list(files(".antt")) + list(files(".rt")):
        aliases.update(imported(path, ours)[1])
    new = {}
    for name in types | terms:
        if name in OTHERWISE:
            new[name] = OTHERWISE[name]
            continue
        if name in types and name in terms and re.search(r"[-]|^[a-z]+[A-Z]", name):
            print("both a type and a term:", name)
        if len(name) == 1 or not re.match(r"[A-Za-z]", name):
            continue
        if name in types:
            to = camel(name)
        elif re.match(r"[A-Z]+$|[A-Z][a-z]*$|[A-Z][a-z]+[A-Z]", name):
            to = name  # a constructor, or a theorem's name among terms
        else:
            to = snake(name)
        if to != name:
            new[name] = to
    for name, of in aliases.items():
        if re.match(r"[a-z].*(-|[A-Z])", name) and name not in new:
            new[name] = camel(name) if of in types else snake(name)
    texts = list(files(".antt")) + list(files(".rt")) + list(files(".edit"))
    clash = 0
    by_new = collections.defaultdict(set)
    for name, to in new.items():
        by_new[to].add(name)
    out = {}
    for path in texts:
        with open(path, encoding="utf-8") as f:
            text = f.read()
        theirs, _ = imported(path, ours)
        seen = set(NAME.findall(text))
        for name in sorted(seen & set(new)):
            if name in theirs:
                print("the kit's name here:", path, name)
            elif stands(new[name], text, path) and new[name] not in new:
                print("the new name is there:", path, name, new[name])
                clash += 1
            for other in by_new[new[name]] & seen - {name}:
                print("fall together here:", path, name, other)
                clash += 1
        if "--list" in sys.argv:
            continue

        # a lemma's name in snake case is a function's in code
        code = path.endswith((".rt", ".edit"))

        def turn(m):
            word = m.group(0)
            if word not in new or word in theirs or (code and word in OTHERWISE and "_" in word):
                return word
            return new[word]

        lines = []
        for line in text.split("\n"):
            comment = re.match(r"\s*(//|--)", line)
            if comment:
                # in plain words only a name in camel case is surely a name
                line = NAME.sub(lambda m: turn(m) if re.match(r"[a-z]+[A-Z]", m.group(0)) else m.group(0), line)
            elif path.endswith(".antt"):
                line = NAME.sub(turn, line)
            else:
                pieces = re.split(r'("(?:[^"\\]|\\.)*")', line)
                line = "".join(p if p.startswith('"') else NAME.sub(turn, p) for p in pieces)
            lines.append(line)
        out[path] = "\n".join(lines)
    if "--list" in sys.argv:
        for name in sorted(new):
            print(name, "->", new[name])
        print(clash, "clashes")
        return
    for path, text in out.items():
        with open(path, "w", encoding="utf-8") as f:
            f.write(text)


main()
