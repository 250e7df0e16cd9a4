#!/usr/bin/env python3
"""Turns this repository's own names of definitions and lemmas to snake case, once, after port.py: in every .antt file, in the ghost text and
comments of every .rt file, and in must-fail edits.

    python3 tools/respell.py        at the top of the repository; prints what it renamed, and what falls together

A name is turned where a small letter or a digit stands before a capital (`readUnit` to `read_unit`). In a lemma's or definition's name a dash stays
where it joins two names of definitions, and is `_` where it joins plain words. Names of std, of fields of Rust structs and of functions keep their
spelling."""
import collections
import glob
import re
import sys

WORD = re.compile(r"[A-Za-z_◌≡≤<>+*/%^&|=-][A-Za-z0-9_'◌≡≤<>+*/%^&|=-]*")
NAME = re.compile(r"[A-Za-z_][A-Za-z0-9_'-]*")
CAMEL = re.compile(r"(?<=[a-z0-9])(?=[A-Z])")
TOP = re.compile(r"^\s*(?:abbrev |unfoldable |pub |data |record |ruleset )*([A-Za-z_][A-Za-z0-9_'-]*) *:(?!=)", re.M)
USE = re.compile(r"use (Rattle\.std|borrow|logic|denote|seplogic|Prim|mathlib|lib)[^\s{;]*(?:\.\{([^}]*)\})?")
KEEP = {"ffffFFFF"}
# names that the rule does not reach: `getD` is `get_or` today, and a record's field has no dash
FORCED = {
    "get_d_part": "get_or-part",
    "get_d_past": "get_or_past",
    "getD-splice-above": "get_or-splice_above",
    "getD-splice-below": "get_or-splice_below",
}
FIELDS = """long-now levels-long cleared-staging told-made told-unmade size-most units-most device-sound table-bytes on-made on-no-back on-unmade
sound-dev fetch-link on-window put-majors store-link"""
FORCED.update({f: f.replace("-", "_") for f in FIELDS.split()})


def snake(word):
    """The name with small letters after a break, but for parts that begin with a capital, as facts do."""
    parts = []
    for part in re.split(r"([-_])", word):
        if part and part[0].islower() and part not in KEEP:
            bits = CAMEL.split(part)
            part = "_".join(b if b.isupper() and len(b) > 1 else b.lower() for b in bits)
        parts.append(part)
    return "".join(parts)


def main():
    antt = sorted(f for f in glob.glob("crates/*/specs/*.antt") + glob.glob("crates/*/proofs/**/*.antt", recursive=True))
    rust = sorted(glob.glob("crates/*/src/**/*.rt", recursive=True))
    edits = sorted(glob.glob("crates/*/must-fail/*.edit"))
    texts = {f: open(f, encoding="utf-8").read() for f in antt + rust + edits}
    foreign, known, tops = set(), set(), set()
    for f in antt + rust:
        for m in USE.finditer(texts[f]):
            for n in (m.group(2) or "").split(","):
                foreign.add(n.strip().split(" as ")[0])
    for f in antt:
        # a function's own folder of proofs names goals, which are not respelled here
        if f.count("/") == 3:
            names = set(TOP.findall(texts[f]))
            (known if "/specs/" in f else tops).update(names)
    known |= {n for n in foreign if "-" not in n}
    whole = re.compile(r"(?<![A-Za-z0-9_'\\-])[a-z][A-Za-z0-9_'-]*")
    turned = {}
    for f, t in texts.items():
        for w in whole.findall(t):
            s = snake(w)
            if s != w and w not in foreign and not w.startswith("b'"):
                turned[w] = s
    spelled = {turned.get(k, k) for k in known}
    for w in sorted(tops | known):
        if "-" in w and w not in foreign and not w.startswith("invariant-") and not w.startswith("decreases-"):
            pieces = turned.get(w, w).replace("getD", "get_or").split("-")
            made = pieces[0]
            for i in range(1, len(pieces)):
                left = pieces[i - 1].rstrip("'") in spelled and pieces[i].rstrip("'") in spelled
                made += ("-" if left else "_") + pieces[i]
            if made != w:
                turned[w] = made
    turned.update(FORCED)
    # where a lemma would have a definition's name, it gets `_lem`; a function may have a definition's name
    clash = collections.defaultdict(set)
    for w in tops | known:
        clash[turned.get(w, w)].add(w)
    for s, ws in sorted(clash.items()):
        if len(ws) > 1:
            stays = sorted(ws & known, key=lambda w: not CAMEL.search(w)) or sorted(ws, key=lambda w: not CAMEL.search(w))
            for w in sorted(ws - {stays[0]}):
                print("together:", s, sorted(ws), "so", w, "becomes", s + "_lem")
                turned[w] = s + "_lem"
            if len(ws & known) > 1 or len(ws) > 2:
                print("LOOK: two definitions", s, sorted(ws))
    # a name without a dash or a capital may be a function's too: it is turned in lemmas alone, and not in a path
    plain = {w for w in turned if "-" not in w and not CAMEL.search(w) and w not in FORCED}
    loose = re.compile(r"(?<![A-Za-z0-9_'.-])[a-z][A-Za-z0-9_'-]*(?!\.)")
    shown = re.compile(r"`[^`\n]*`")
    chain = re.compile(r"(?<![A-Za-z0-9_'-])c\.[A-Za-z0-9_'.-]*")
    camel = {w: s for w, s in turned.items() if CAMEL.search(w)}

    def turn(text, names):
        text = whole.sub(lambda m: m.group(0) if m.group(0) in plain else names.get(m.group(0), m.group(0)), text)
        return text

    def turn_lemmas(text):
        # (in a comment such a word may be meant as a word)
        lines = text.split("\n")
        return "\n".join(l if l.lstrip().startswith("--") else loose.sub(lambda m: turned[m.group(0)] if m.group(0) in plain else m.group(0), l) for l in lines)

    for f, t in texts.items():
        # the names of a proof's steps come from the source: there only capitals are turned
        if f.endswith(".antt"):
            t = turn_lemmas(t)
        at, new = 0, ""
        for m in chain.finditer(t) if f.count("/") > 3 and f.endswith(".antt") else ():
            new += turn(t[at : m.start()], turned) + turn(m.group(0), camel)
            at = m.end()
        new += turn(t[at:], turned)
        if new != texts[f] and "--dry" not in sys.argv:
            open(f, "w", encoding="utf-8").write(new)
    for f in glob.glob("*.md") + glob.glob("docs/*.md"):
        t = open(f, encoding="utf-8").read()
        new = shown.sub(lambda m: turn(m.group(0), turned), t)
        if new != t and "--dry" not in sys.argv:
            open(f, "w", encoding="utf-8").write(new)
    for w, s in sorted(turned.items()):
        print(w, "->", s)


main()
