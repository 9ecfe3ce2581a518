#!/usr/bin/env python3
"""Turns the names of this repository's own definitions and lemmas to the language's spelling: types in upper camel
case, all else in snake case, and a prime as an apostrophe. Names of functions in src/, strings, inputs and outputs stay.

usage: tools/respell.py [--list]     at the top of the repository; --list only prints the names

It turns names in specs/ and proofs/, in the ghost parts of src/, in must-fail/ and between backquotes in README.md and docs/.
"""
import os
import re
import sys

# A name that falls together with another one in some file, and what it is called instead.
INSTEAD = {
    "Streams-exist": "StreamsAlwaysExist",
    "Streams-typed": "StreamsAlwaysTyped",
    "Streams-unique": "StreamsAlwaysUnique",
    "call-fine": "call_fine_lem",
    "counts-fit": "counts_fit_lem",
    "equation-at": "equation_at_lem",
    "equations-read": "equations_read_lem",
    "first-value": "first_value_lem",
    "front_length": "front_length_lem",
    "gives-behind": "gives_behind_lem",
    "gives-fine": "gives_fine_lem",
    "gives_at": "gives_at_lem",
    "is-in": "is_in_lem",
    "is-type": "is_type_lem",
    "main-in": "main_in_lem",
    "need-at": "need_at_lem",
    "need-of": "need_of_lem",
    "next-delay": "next_delay_lem",
    "next-tree": "next_tree_lem",
    "node-need": "node_need_lem",
    "node-words": "node_words_lem",
    "none-offered": "none_offered_lem",
    "operand-fine": "operand_fine_lem",
    "operands-at": "operands_at_lem",
    "operands-fine": "operands_fine_lem",
    "operands-in": "operands_in_lem",
    "operands-read": "operands_read_lem",
    "order-fault": "order_fault_lem",
    "ports-word": "ports_word_lem",
    "reset-place": "reset_place_lem",
    "restart-fits": "restart_fits_lem",
    "restart-in": "restart_in_lem",
    "row-at": "row_at_lem",
    "same-clock": "same_clock_lem",
    "sampler-fits": "sampler_fits_lem",
    "second-in": "second_in_lem",
    "size-fault": "size_fault_lem",
    "step-place": "step_place_lem",
    "tree-at": "tree_at_lem",
    "variable-place": "variable_place_lem",
}

NAME = r"[A-Za-z0-9_'′\-\u0370-\u03ff\u1d00-\u1dbf\u2070-\u209c\u2115\u2124∥]+"
TOKEN = re.compile(NAME)
GENERATED = ("Answers.antt", "Invariants.antt", "Choices.antt", "Proof.antt")
MARKS = ("pattern", "unfoldable", "abbrev", "pub", "data", "record")


def files(root, *ends):
    for folder, dirs, names in os.walk(root):
        dirs[:] = sorted(d for d in dirs if d not in ("out", ".git", "target"))
        for n in sorted(names):
            if n.endswith(ends):
                yield os.path.join(folder, n)


def read(path):
    with open(path, encoding="utf-8") as f:
        return f.read()


def signatures(text):
    """The names that a file declares, each with its line and the text of its type."""
    lines = text.split("\n")
    for i, line in enumerate(lines):
        if " : " not in line or re.match(r"^\s*(let|λ|use|in|elim|unfolding|--|module)(\s|$)", line):
            continue
        head, ty = line.split(" : ", 1)
        head = re.split(r" [({]", head, maxsplit=1)[0]
        parts = head.split()
        kind = [w for w in parts if w in MARKS]
        names = [w for w in parts if w not in MARKS]
        if not names or not all(TOKEN.fullmatch(w) for w in names):
            continue
        j = i + 1
        while j < len(lines) and re.match(r"^\s+(→|\()", lines[j]):
            ty += " " + lines[j].strip()
            j += 1
        for n in names:
            yield n, ty, " ".join(kind) + " "


def is_type(line, ty):
    return bool(re.search(r"\b(data|record) ", line)) or bool(re.search(r"(^|→ |: )Type 0\s*(where)?$", ty.strip()))


def words(name):
    parts = [w for w in re.split(r"[-_]", name)]
    out = []
    for p in parts:
        out += re.sub(r"(?<=[a-z0-9])(?=[A-Z])", " ", p).split(" ")
    return out


def respelled(name, a_type):
    if name in INSTEAD:
        return INSTEAD[name]
    n = name.replace("′", "'")
    if n[:1].isupper() and "-" not in n:
        return n
    if a_type or n[:1].isupper():
        if "-" not in n and "_" not in n:
            return n[:1].upper() + n[1:]
        return "".join(w[:1].upper() + w[1:] for w in words(n))
    return "_".join(w.lower() if re.match(r"^[A-Za-z0-9]+'*$", w) else w for w in words(n))


def declared(root):
    names = {}
    for path in files(os.path.join(root, "crates"), ".antt", ".antt.txt"):
        if not re.search(r"/(specs|proofs)/", path):
            continue
        for n, ty, line in signatures(read(path)):
            if re.match(r"(goal|need)\.", ty.strip()):
                continue
            t = is_type(line, ty)
            names[n] = names.get(n, False) or t
    # and the names that an import gives
    for path in files(os.path.join(root, "crates"), ".rt", ".antt"):
        for line in re.findall(r"^\s*(?:ghost )?use [^;\n]*", read(path), re.M):
            for n in re.findall(r" as ([a-z]+[A-Z][A-Za-z]*)", line):
                names.setdefault(n, False)
    return names


def mapping(root):
    return {n: respelled(n, t) for n, t in declared(root).items() if respelled(n, t) != n}


def turn_tokens(text, names, answers=False):
    def one(m):
        given = answers and re.search(r"(^|[^%s.])[cl]\.$" % NAME[1:-2], text[max(0, m.start() - 3): m.start()])
        return m.group(0) if given else names.get(m.group(0), m.group(0))

    return TOKEN.sub(one, text)


def turn_quoted(text, names):
    return re.sub(r"`[^`\n]*`", lambda m: turn_tokens(m.group(0), names), text)


def turn_antt(text, names, answers=False):
    out = []
    for line in text.split("\n"):
        code, dash, comment = line, "", ""
        m = re.search(r"(^|\s)--(\s|$)", line)
        if m:
            code, comment = line[: m.start()], line[m.start():]
        # the module of a function's goals keeps its name, and so does what stands in a goal's record
        if not re.search(r"\.(Goals|Given) as ", code):
            code = turn_tokens(code, names, answers)
        out.append(code + turn_quoted(comment, names))
    return "\n".join(out)


def ghost_spans(text):
    """The parts of a source file that clauses, ghost fields and ghost imports take."""
    for m in re.finditer(r"^\s*ghost use [^;]*;", text, re.M):
        yield m.start(), m.end()
    for m in re.finditer(r"^\s*(?:requires|ensures|ghost)\b[^\n{=]*(?:=\s*)?\{", text, re.M):
        depth, i = 1, m.end()
        while depth and i < len(text):
            depth += {"{": 1, "}": -1}.get(text[i], 0)
            i += 1
        yield m.end(), i


def turn_source(text, names):
    spans = sorted(set(ghost_spans(text)))
    out, at = [], 0
    for a, b in spans:
        if a < at:
            continue
        out.append(turn_comments(text[at:a], names))
        out.append(turn_tokens(text[a:b], names))
        at = b
    out.append(turn_comments(text[at:], names))
    return "".join(out)


def turn_comments(text, names):
    return re.sub(r"//[^\n]*", lambda m: turn_quoted(m.group(0), names), text)


def turn_edit(text, names):
    m = re.search(r"^file: (.*)$", text, re.M)
    if m and m.group(1).endswith(".antt"):
        return "\n".join(l if l.startswith("file:") else turn_antt(l, names) for l in text.split("\n"))
    out = []
    for l in text.split("\n"):
        ghostly = re.search(r"^(old|new):\s*(requires|ensures|ghost)\b", l)
        out.append(turn_tokens(l, names) if ghostly else l)
    return "\n".join(out)


def main(argv):
    root = "."
    names = mapping(root)
    if "--list" in argv:
        for n in sorted(names):
            print(n, names[n])
        return 0
    for path in list(files(os.path.join(root, "crates"), ".antt", ".antt.txt", ".rt", ".rt.txt", ".edit", ".edit.txt")):
        old = read(path)
        plain = path[:-4] if path.endswith(".txt") else path
        turn = (lambda t, n: turn_antt(t, n, plain.endswith(GENERATED))) if plain.endswith(".antt") else turn_source if plain.endswith(".rt") else turn_edit
        new = turn(old, names)
        if new != old:
            with open(path, "w", encoding="utf-8") as f:
                f.write(new)
    for path in ["README.md"] + [os.path.join("docs", d) for d in sorted(os.listdir("docs")) if d.endswith(".md") and not d.startswith("PORT")]:
        old = read(path)
        new = turn_quoted(old, names)
        if new != old:
            with open(path, "w", encoding="utf-8") as f:
                f.write(new)
    return 0


if __name__ == "__main__":
    raise SystemExit(main(sys.argv[1:]))
