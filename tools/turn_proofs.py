#!/usr/bin/env python3
"""Turns a crate's `proofs/F/Proof.antt` of the older form into `Invariants.antt` and `Answers.antt`.

    python3 tools/turn_proofs.py CRATE [NAMES] [F ..]

NAMES is the names.json that `rt check --generated FOLDER --old-names` wrote for the crate. Answers by `search rules` alone are left out, since the
check tries that itself; what could not be turned is marked `-- LOOK`."""
import glob
import json
import os
import re
import sys

NAME = r"[A-Za-z_][A-Za-z0-9_'-]*"
DECL = re.compile(r"^(?:pub |abbrev |unfoldable |data |record )*(" + NAME + r")(?: *:(?!=)|\s)")
CHAIN = re.compile(r"(?<![A-Za-z0-9_'.-])c((?:\.before)*)((?:\.[A-Za-z0-9_'-]+)*)(?![A-Za-z0-9_'-])")
FIXED = {"args", "requires", "ranges", "type_inv", "type-inv", "lifetimes", "well_formed"}


def plain(s):
    return re.sub(r"[^a-z0-9]", "", s.lower())


def declarations(text):
    """The head of the file, and its declarations as (name, lines)."""
    head, decls, seen = [], [], None
    for line in text.split("\n"):
        starts = bool(line) and not line[0].isspace() and line[0] not in ")]}"
        if starts and line.startswith("--"):
            (decls[-1][2] if decls else head).append(line)
            continue
        m = DECL.match(line) if starts else None
        if m and not line.startswith("use ") and not line.startswith("unfolding "):
            name = m.group(1)
            if not decls or decls[-1][0] != name:
                # comments just above belong to what follows
                above = []
                if decls:
                    while decls[-1][2] and decls[-1][2][-1].startswith("--"):
                        above.insert(0, decls[-1][2].pop())
                decls.append((name, above, []))
            decls[-1][2].append(line)
        elif decls:
            decls[-1][2].append(line)
        else:
            head.append(line)
    return head, decls


class Function:
    def __init__(self, data):
        self.d = data
        self.places = {}
        for i, p in enumerate(data["places"]):
            self.places.setdefault(p[0], i)
        self.looks = []

    def place_at(self, need):
        return self.d["asked_at"][need][0]

    def parent(self, i):
        p = self.d["places"][i][1]
        return None if p is None else self.places.get(p)

    def chain(self, start, befores, rest):
        """`c` with so many `.before`s, at the place, and then a path: today's path."""
        if not rest:
            return "c" if befores == 0 else None
        word = re.sub(r"_lem$", "", rest[0]).replace("type-inv", "type_inv").replace("well-formed", "well_formed").replace("type_size", "size_of")
        if word in FIXED:
            return ".".join(["c", word] + rest[1:])
        rest = [word] + rest[1:]
        # the line of steps up to the start; today's may have more of them, so that the nearest of the name counts
        line, i = [], self.places.get(start)
        if i is None and start.endswith("-unread"):
            i = self.places.get(start[: -len("-unread")])
        while i is not None:
            line.append(i)
            i = self.parent(i)
        found = []
        for depth, i in enumerate(line):
            arm = self.d["arms"][i] if i < len(self.d["arms"]) else None
            if arm:
                for field, step, path in arm[2]:
                    if plain(step) == plain(rest[0]) and path and [plain(p) for p in path] == [plain(r) for r in rest[1 : 1 + len(path)]]:
                        found.append((abs(depth - befores), depth, -len(path), ".".join(["c", arm[0], field] + rest[1 + len(path) :])))
            old, new = self.d["places"][i][2]
            if plain(old) == plain(rest[0]) or plain(new) == plain(rest[0]):
                found.append((abs(depth - befores), depth, 0, self.step(i, new, rest)))
        if not found:
            return None
        best = min(found)
        # an arm's own name for a fact is better than the step that it came by
        for f in sorted(found, key=lambda f: (f[2], f[0])):
            if f[2] < 0 and f[1] <= best[1] + 1 and f[0] <= best[0] + 2:
                return f[3]
        return best[3]

    def step(self, i, new, rest):
        tail = list(rest[1:])
        arm = self.d["arms"][i] if i < len(self.d["arms"]) else None
        if arm:
            new = arm[0]
            best = None
            for field, _, path in arm[2]:
                if [plain(p) for p in path] == [plain(t) for t in tail[: len(path)]] and (best is None or len(path) > len(best[1])):
                    best = (field, path)
            if best:
                tail = [best[0]] + tail[len(best[1]) :]
                return ".".join(["c", new] + tail)
        clauses = self.d["clauses"][i] if i < len(self.d["clauses"]) else None
        if clauses and tail and tail[0] == "ensures":
            fields = clauses["fields"]
            if len(fields) == 1:
                tail = ["ensures", fields[0]] + tail[1:]
            elif len(tail) > 1 and tail[1].isdigit() and int(tail[1]) < len(fields):
                tail = ["ensures", fields[int(tail[1])]] + tail[2:]
        for var, by in self.d["typed"][i] if i < len(self.d["typed"]) else ():
            if tail[:1] == ["given"] and plain(by) == plain(rest[0]):
                return ".".join(["c", "type_inv", var] + tail[1:])
        return ".".join(["c", new] + tail)

    def turn(self, text, need):
        place = self.place_at(need)
        # aliases of places
        alias = re.compile(r"let (" + NAME + r") = c((?:\.before)+) in\s*")
        while True:
            m = alias.search(text)
            if not m:
                break
            name, path = m.group(1), "c" + m.group(2)
            text = text[: m.start()] + re.sub(r"(?<![A-Za-z0-9_'.-])" + re.escape(name) + r"(?![A-Za-z0-9_'-])", path, text[m.end() :])

        def one(m):
            befores = m.group(1).count(".before")
            rest = [r for r in m.group(2).split(".") if r]
            if not rest and not befores:
                return m.group(0)
            said = self.chain(place, befores, rest)
            if said is None:
                self.looks.append((self.d["needs"][need][1], m.group(0)))
                return m.group(0)
            return said

        return CHAIN.sub(one, text)


def turn(crate, folder, data, module):
    text = open(folder + "/Proof.antt", encoding="utf-8").read()
    if ".Tie as tie" not in text:
        return "hand"
    f = Function(data)
    head, decls = declarations(text)
    uses = [l for l in head if l.startswith("use ") and ".Statement.{" not in l and not l.endswith(".Tie as tie")]
    comments = [l for l in head if l.startswith("--")]
    needs = data["needs"]
    spec_args = None
    answers, invariants, helpers = [], [], []
    old_needs = []
    for name, above, lines in decls:
        sig = lines[0]
        m = re.search(r"\btie\.(Need-|invariant-|decreases-|ghost-)(" + NAME + ")", sig)
        if ": {M : Type 1} → statement M" in sig or "→ statement M" in sig or ": statement" in sig:
            joined = " ".join(lines)
            k = joined.find("tie.spec")
            spec_args = re.findall(NAME, joined[k + len("tie.spec") :]) if k >= 0 else []
            continue
        if m and m.group(1) == "Need-":
            old_needs.append((name, m.group(2), above, lines))
        elif m:
            invariants.append((name, m.group(1), m.group(2), above, lines))
        else:
            helpers.append((name, above, lines))
    order = {a: i for i, a in enumerate(spec_args or [])}
    old_needs.sort(key=lambda n: order.get(n[0], 999))
    # by name first, by place in the list else
    pairs = {}
    left = list(range(len(needs)))
    exact = len(old_needs) == len(needs)
    for k, (name, need, above, lines) in enumerate(old_needs):
        want = plain(re.sub(r"^overflow-", "", need))
        hits = [i for i in left if plain(needs[i][0]) == want]
        if hits:
            pairs[k] = hits[0]
            left.remove(hits[0])
    if exact:
        rest_old = [k for k in range(len(old_needs)) if k not in pairs]
        for k in rest_old:
            if k in left:
                pairs[k] = k
                left.remove(k)
    elif left:
        rest_old = [k for k in range(len(old_needs)) if k not in pairs]
        if len(rest_old) == len(left):
            for k, i in zip(rest_old, left):
                pairs[k] = i
    for k, (name, need, above, lines) in enumerate(old_needs):
        i = pairs.get(k)
        if i is None:
            settled = data.get("settled", [])
            if any(plain(s).endswith(plain(re.sub(r"^overflow-", "", need))) for s in settled):
                continue
            answers.append(["-- LOOK: no goal for " + need] + ["-- " + l for l in lines])
            f.looks.append((need, "no goal"))
            continue
        goal = needs[i][1]
        out = above + ["pub %s : goal.%s" % (goal, goal)]
        clause = False
        term = []
        for l in lines[1:]:
            m = re.match(re.escape(name) + r"((?: +[^=]*?)?) =(.*)$", l)
            if m and not clause:
                args = m.group(1).split()
                args = [a for a in args if a not in ("κs", "ls")]
                if args and args[0] != "c":
                    args = ["c" if a == args[0] else a for a in args]
                term.append((" ".join([goal] + (args or ["c"])) + " =" + m.group(2)).rstrip())
                clause = True
            else:
                term.append(l)
        body_text = "\n".join(term)
        after = body_text.split("=", 1)[1].strip() if "=" in body_text else ""
        if re.fullmatch(r"search rules", after) or re.fullmatch(r"search \(rules\)", after):
            continue
        said = f.turn(body_text, i).rstrip()
        # the test of an `if !x` speaks of x itself today
        said = re.sub(r"\(not-(?:true|false) (?:_|[\w.'-]+|\([^()]*\)) (c\.if-not-[A-Za-z0-9_'.-]*)\)", r"\1", said)
        said = re.sub(r"not-(?:true|false) (?:_|[\w.'-]+|\([^()]*\)) (c\.if-not-[A-Za-z0-9_'.-]*)", r"\1", said)
        out.append(said)
        answers.append(out)
    invs = []
    loops = {plain(l[0][0]): (l[0][1], l[1], data["changed"][j]) for j, l in enumerate(data["loops"])}
    for name, kind, which, above, lines in invariants:
        what = kind[:-1]
        got = loops.get(plain(which))
        if got is None:
            f.looks.append((name, "no loop " + which + " in " + str(list(loops))))
            invs.append(["-- LOOK: " + name] + lines)
            continue
        new, names, changed = got
        goal = what + "-" + new
        joined = "\n".join(lines[1:]).rstrip()
        m = re.match(r"((?:unfolding [^\n]*\n)?)" + re.escape(name) + r"((?: +[^=\n]*?)?) =", joined)
        if not m:
            f.looks.append((name, "clauses"))
            invs.append(["-- LOOK: " + name] + lines)
            continue
        args = m.group(2).split()
        term = joined[m.end() :]
        want = []
        for v, c in zip(names, changed):
            want.append("l.initial." + v if c else "l." + v)
        for v, c in zip(names, changed):
            if c:
                want.append("l." + v)
        if len(want) != len(args):
            f.looks.append((name, "args %s for %s" % (args, want)))
            invs.append(["-- LOOK: args %s for %s" % (args, want)])
        by = {a: w for a, w in zip(args, want) if a != "_"}
        term = re.sub(r"(?<![A-Za-z0-9_'.₀-])[A-Za-z_][A-Za-z0-9_'₀-]*", lambda m: by.get(m.group(0), m.group(0)), term)
        invs.append(above + ["abbrev pub %s : goal.%s" % (goal, goal), m.group(1) + "%s l =%s" % (goal, term)])
    helper_names = {h[0] for h in helpers}
    inv_text = "\n".join("\n".join(i) for i in invs)
    to_inv = {h for h in helper_names if re.search(r"(?<![A-Za-z0-9_'-])" + re.escape(h) + r"(?![A-Za-z0-9_'-])", inv_text)}
    written = []
    if invs:
        own = []
        for name, above, lines in helpers:
            if name in to_inv:
                ls = list(lines)
                if not ls[0].startswith("pub ") and " pub " not in ls[0]:
                    ls[0] = re.sub(r"^(abbrev|unfoldable) ", r"\1 pub ", ls[0]) if re.match(r"(abbrev|unfoldable) ", ls[0]) else "pub " + ls[0]
                own += above + ls + [""]
        out = comments[:1] + uses + ["use %s.Given as goal" % module, ""] + own
        for i in invs:
            out += i + [""]
        open(folder + "/Invariants.antt", "w", encoding="utf-8").write("\n".join(out).rstrip() + "\n")
        written.append("Invariants")
    if answers:
        own = []
        for name, above, lines in helpers:
            if name not in to_inv:
                own += above + [re.sub(r"^pub ", "", lines[0])] + lines[1:] + [""]
        out = comments + uses + ["use %s.Goals as goal" % module]
        if to_inv:
            out.append("use %s.Invariants.{%s}" % (module, ", ".join(sorted(to_inv))))
        out += [""] + own
        for a in answers:
            out += a + [""]
        text = re.sub(r"\n\n\n+", "\n\n", "\n".join(out)).rstrip() + "\n"
        open(folder + "/Answers.antt", "w", encoding="utf-8").write(text)
        written.append("Answers")
    os.remove(folder + "/Proof.antt")
    if not os.listdir(folder):
        os.rmdir(folder)
    for g, w in f.looks:
        print("  look: %s %s: %s" % (module, g, w))
    return "+".join(written) or "none"


def main():
    crate = sys.argv[1]
    names = json.load(open(sys.argv[2]))
    only = set(sys.argv[3:])
    top = "crates/%s/proofs" % crate
    for path in sorted(glob.glob(top + "/**/Proof.antt", recursive=True)):
        folder = os.path.dirname(path)
        inner = os.path.relpath(folder, top).replace("/", ".")
        if only and inner not in only:
            continue
        data = names.get("Rattle-%s-proofs.%s.Lts" % (crate, inner))
        if data is None:
            print(inner, "has no names")
            continue
        print(inner, turn(crate, folder, data, "Rattle.%s.proofs.%s" % (crate, inner)))


main()
