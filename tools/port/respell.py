#!/usr/bin/env python3
"""Brings the repository's own definitions and lemmas to the spelling of today's Rattle, once, behind port.py.

usage: tools/port/respell.py [--check]      at the top; with --check nothing is written, and what falls together is printed

A definition or lemma is in snake case (wordOf is word_of, filling-more is filling_more), and a fact, that is what a signature ends in
`Type 0` for, in upper camel case (isWord is IsWord). What is renamed is what specs/ and the lemma files of proofs/ declare; the folders of
functions keep what they declare themselves, and a name that Rattle makes (behind c, l, goal, tie) stays. Functions of src/, strings,
exported names, inputs and outputs are not touched. A name that would fall together with another stays, and is printed.
"""
import os
import re
import subprocess
import sys
from collections import defaultdict

NAME = r"[^\s(){}.;,@\"«»]+"
TOKEN = re.compile(NAME)
HEAD = re.compile(r"^( *)(?:abbrev |unfoldable |pub )*(?:(record|data|syntax) )?(" + NAME + r")(?: \{[^{}\n]*\})* ?(:|\()", re.M)
QUIET = re.compile(r"--[^\n]*")
RESERVED = {"where", "module", "use", "let", "in", "elim", "as", "record", "data", "pub", "mod", "unfolding", "unfold", "abbrev", "λ", "_"}
OPERATOR = re.compile(r"◌|^[^A-Za-z]")


def snake(name):
    words = re.sub(r"(?<=[a-z0-9])[A-Z]", lambda m: "_" + m[0].lower(), name)
    return words.replace("-", "_")


def camel(name):
    parts = re.split(r"[-_]", name)
    return "".join(p[:1].upper() + p[1:] for p in parts)


def files():
    out = subprocess.run(["git", "ls-files", "crates"], capture_output=True, text=True, check=True).stdout.split("\n")
    return [f for f in out if re.search(r"\.(antt|rt)$", f) and "/data/" not in f]


def is_lemma_file(path, folders):
    """Whether a file of proofs/ is no part of a function's folder."""
    inside = re.match(r"crates/[^/]+/(specs|proofs)/(.*)", path)
    if not inside:
        return False
    if inside[1] == "specs":
        return True
    return os.path.basename(path) not in ("Proof.antt", "Answers.antt", "Invariants.antt")


def ends_in_type(text, at):
    """Whether the signature whose colon ends at `at` ends in Type 0."""
    rest = text[at:]
    stop = re.search(r"\n(?= {0,2}\S)", rest)
    body = rest[: stop.start()] if stop else rest
    lines = []
    for line in body.split("\n"):
        if line.strip().startswith("unfolding "):
            break
        lines.append(line)
    return re.search(r"(?:^|→|:)\s*Type 0\s*$", " ".join(lines).strip() if lines else "") is not None


def declared(texts):
    """Each name that is declared: its new spelling, or None where two kinds of it differ."""
    new = {}
    for path, text in texts.items():
        if not path.endswith(".antt") or not is_lemma_file(path, None):
            continue
        code = QUIET.sub("", text)
        for m in HEAD.finditer(code):
            kind, name, end = m[2], m[3], m[4]
            if name in RESERVED or OPERATOR.search(name) or kind == "syntax":
                continue
            if end == "(" and not kind:
                continue
            if len(m[1]) > 2 and not kind:
                if not re.match(r" *(?:pub )", m[0]):
                    continue
            if kind:
                spelled = camel(name)
            elif end == ":" and ends_in_type(code, m.end()) and name[0].islower() and not re.search(r"(?m)^ *pub " + re.escape(name) + " :", ""):
                spelled = camel(name) if is_fact(code, m) else snake(name)
            else:
                spelled = snake(name) if name[0].islower() else name
            # Where one name is declared as a fact and as something else, neither is capitalised.
            if name in new and new[name] != spelled:
                spelled = snake(name) if name[0].islower() else name
            new[name] = spelled
    return {old: now for old, now in new.items() if old != now}


def is_fact(code, m):
    """A signature at the left margin or in a module: no field of a record, whose type may be Type 0 too."""
    return not re.search(r"record [^\n]*where\s*(?:\n +[^\n]*)*$", code[max(0, m.start() - 400) : m.start()]) or len(m[1]) == 0


MADE = re.compile(r"(?:(?<=\bgoal)|(?<=\btie))\.(" + NAME + ")")
GENERATED = re.compile(r"/proofs/(?:.*/)?(Proof|Answers|Invariants)\.antt$")
TIE = re.compile(r"\btie\.(?:Need-)?(" + NAME + ")")


USE = re.compile(r"\buse ([^\s;{]+)(\{[^}]*\})?")
UNDOTTED = re.compile(r"(?:(?<=^)|(?<=[\s(){};,@\"«»]))" + NAME)
LEMMAS = {"leftEntry": "left_entry_of", "curR": "current_right"}


def foreign(code):
    """The names that a file brings in from a library that is not the repository's."""
    out = set()
    for m in USE.finditer(code):
        steps = m[1].strip(".").split(".")
        if steps[0] == "Rattle" and os.path.isdir(os.path.join("crates", steps[1])):
            continue
        out |= set(TOKEN.findall(m[2] or steps[-1]))
    return out


def respell_antt(text, new, own, made):
    out, last = [], 0
    keep = own | made

    def turn(code):
        return TOKEN.sub(lambda m: new.get(m[0], m[0]) if m[0] not in keep else m[0], code)

    pieces = re.split(r"(\"(?:\\.|[^\"\\])*\")", text)
    return "".join(p if i % 2 else turn(p) for i, p in enumerate(pieces))


CLAUSE = re.compile(r"\b(requires|ensures|ghost)\b(\*?(?: +\w+)?\s*)(\{|use )")


def closing(text, at):
    depth = 0
    for i in range(at, len(text)):
        depth += {"{": 1, "}": -1}.get(text[i], 0)
        if depth == 0:
            return i + 1
    return len(text)


def respell_rt(text, new):
    out, at = [], 0
    for m in re.finditer(r"(?m)^( *)(?:(?:ghost use) |(?:requires|ensures)\*?(?: \w+)? \{|(?:pub )?ghost \w+: \{)", text):
        if m.start() < at:
            continue
        if m[0].strip().startswith("ghost use"):
            end = text.index(";", m.end()) + 1
        else:
            end = closing(text, m.end() - 1)
        out.append(text[at : m.start()])
        out.append(TOKEN.sub(lambda t: new.get(t[0], t[0]), text[m.start() : end]))
        at = end
    out.append(text[at:])
    return "".join(out)


def clauses_of(text):
    """The text of the clauses and ghost lines of a .rt file, and the rest."""
    inside, outside, at = [], [], 0
    for m in re.finditer(r"(?m)^( *)(?:(?:ghost use) |(?:requires|ensures)\*?(?: \w+)? \{|(?:pub )?ghost \w+: \{)", text):
        if m.start() < at:
            continue
        end = text.index(";", m.end()) + 1 if m[0].strip().startswith("ghost use") else closing(text, m.end() - 1)
        inside.append(text[m.start() : end])
        outside.append(text[at : m.start()])
        at = end
    outside.append(text[at:])
    return "\n".join(inside), "\n".join(outside)


def main(argv):
    check = "--check" in argv
    texts = {}
    for f in files():
        with open(f, encoding="utf-8") as it:
            texts[f] = it.read()
    new = declared(texts)
    used = defaultdict(set)
    theirs = {}
    for path, text in texts.items():
        code = QUIET.sub("", text) if path.endswith(".antt") else clauses_of(re.sub(r"//[^\n]*", "", text))[0]
        theirs[path] = foreign(code)
        for t in set(UNDOTTED.findall(USE.sub(lambda m: " " + (m[2] or "") + " ", code))) - theirs[path]:
            used[t].add(path)
    stays = {}
    spelled = defaultdict(set)
    for old, now in new.items():
        spelled[now].add(old)
    # A lemma that would have its definition's name gets _lem.
    for now, olds in spelled.items():
        for old in sorted(olds):
            if len(olds) > 1 and "-" in old:
                new[old] = now + "_lem"
    for old, now in LEMMAS.items():
        if old in new:
            new[old] = now
    spelled = defaultdict(set)
    for old, now in new.items():
        spelled[now].add(old)
    for now, olds in spelled.items():
        if len(olds) > 1:
            for old in sorted(olds)[1:]:
                stays[old] = f"{now} would be two: {sorted(olds)}"
    # Where a file's own lemma has the name already, the lemma gets _lem.
    aside = defaultdict(dict)
    for old, now in list(new.items()):
        both = used[old] & used.get(now, set())
        if both and "-" in old and not used.get(now + "_lem"):
            new[old] = now + "_lem"
        elif both and all(f.endswith(".antt") for f in both) and not used.get(now + "_lem"):
            for f in both:
                aside[f][now] = now + "_lem"
        elif both:
            stays.setdefault(old, f"{now} stands already in {sorted(both)[:3]}")
    for path, text in texts.items():
        if not path.endswith(".rt"):
            continue
        inside, outside = clauses_of(re.sub(r"//[^\n]*", "", text))
        here = set(TOKEN.findall(inside))
        for old in here & set(new):
            now = new[old]
            if re.search(r"\b" + re.escape(now) + r"\b(?!\s*[(<]|;)(?<!::)", outside) and re.search(r"[(,]\s*(?:mut )?" + re.escape(now) + r": ", outside):
                stays.setdefault(old, f"{now} is a parameter in {path}")
    for old, why in sorted(stays.items()):
        print(f"stays: {old}: {why}")
        del new[old]
    print(f"renamed: {len(new)}, stay: {len(stays)}")
    if check:
        return 0
    for path, text in texts.items():
        if path.endswith(".rt"):
            turned = respell_rt(text, {o: n for o, n in new.items() if o not in theirs[path]})
        else:
            made = set()
            if GENERATED.search(path):
                made = {m for m in TIE.findall(text)}
                made |= set(re.findall(r"(?m)^(?:pub )?(" + NAME + r") : tie\.Need", text))
            turned = respell_antt(respell_antt(text, aside[path], set(), set()), new, theirs[path], made)
        if turned != text:
            with open(path, "w", encoding="utf-8") as it:
                it.write(turned)
    with open(os.path.join(os.path.dirname(os.path.abspath(__file__)), "respelled.tsv"), "w", encoding="utf-8") as it:
        it.writelines(f"{old}\t{now}\n" for old, now in sorted(new.items()))
    return 0


if __name__ == "__main__":
    raise SystemExit(main(sys.argv[1:]))
