#!/usr/bin/env python3
"""Mends names of fields in answers by what a check said: `record R has no field x`, with the fields that there are.

    rt check > LOG; python3 tools/mend_fields.py LOG     in the crate's folder; prints how many places it mended"""
import re
import sys

HEAD = re.compile(r"^(\./\S+?):(\d+):(\d+): error: .*?has no field `([^`]+)`(.*)$")
PLAIN = re.compile(r"[^a-z0-9]")


def plain(s):
    return PLAIN.sub("", s.lower())


def main():
    lines = open(sys.argv[1], encoding="utf-8", errors="replace").read().split("\n")
    done, mended = set(), 0
    texts = {}
    todo = []
    for i, line in enumerate(lines):
        m = HEAD.match(line)
        if not m:
            continue
        rest = m.group(5) + " " + (lines[i + 1] if i + 1 < len(lines) and lines[i + 1].startswith("  ") else "")
        fields = re.findall(r"`([^`]+)`", rest.split("named here are", 1)[1]) if "named here are" in rest else []
        near = re.search(r"nearest: \.([A-Za-z0-9_'-]+)", rest)
        todo.append((m.group(1), int(m.group(2)), int(m.group(3)), m.group(4), fields, near.group(1) if near else None))
    for path, row, col, field, fields, near in todo:
        if (path, row, col) in done:
            continue
        done.add((path, row, col))
        t = texts.setdefault(path, open(path, encoding="utf-8").read().split("\n"))
        line = t[row - 1]
        # the column is where the projection's term begins
        at = re.compile(r"\." + re.escape(field) + r"(?![A-Za-z0-9_'-])")
        spots = [s for s in at.finditer(line) if s.start() >= col - 1] or list(at.finditer(line))
        if not spots:
            continue
        s = spots[0]
        new, end = None, s.end()
        same = [f for f in fields if plain(f) == plain(field)]
        if len(same) == 1 and not field.isdigit():
            new = same[0]
        elif field in ("0", "1") and fields and not any(f.isdigit() for f in fields):
            # places in a row of pairs are names today
            tail = re.match(r"((?:\.[01])*)", line[s.start() :]).group(1)
            k, parts = 0, tail.strip(".").split(".")
            used = 0
            for p in parts:
                used += 2
                if p == "0":
                    break
                k += 1
            if len(fields) == 1:
                new, end = fields[0], s.start() + len(tail)
            elif k < len(fields):
                new, end = fields[k], s.start() + used
        elif re.fullmatch(r"t[1-9]", field) and int(field[1:]) <= len(fields):
            # a parameter by its place
            new = fields[int(field[1:]) - 1]
        elif field in ("type_size",):
            new = near or next((f for f in fields if f.startswith("size_of")), None)
        elif near and re.sub(r"\d+$", "", plain(field)) == re.sub(r"\d+$", "", plain(near)):
            new = near
        if new is None:
            print("left: %s:%d:%d %s of %s" % (path, row, col, field, fields[:8]))
            continue
        t[row - 1] = line[: s.start()] + "." + new + line[end:]
        mended += 1
    # what an `if !x` tells: `x` itself is false, where an older lemma asks that `not x` is true; or the other way about
    shift = {}
    for i, line in enumerate(lines):
        m = re.match(r"^(\./\S+?):(\d+):(\d+): error: ", line)
        if not m or "differ" not in line:
            continue
        said = " ".join([line] + [l for l in lines[i + 1 : i + 4] if l.startswith("  ")])
        e = re.search(r"expected type `(.*?)`,? *but this has type `(.*?)`", said)
        if not e:
            continue
        more = [len(re.findall(r"(?:Bool\.|\()not ", x)) for x in e.groups()]
        path, row, col = m.group(1), int(m.group(2)), int(m.group(3))
        ends = [x.rsplit(" ", 1)[-1].rsplit(".", 1)[-1] for x in e.groups()]
        field_test = more[0] == more[1] == 1 and {ends[0], ends[1]} == {"true", "false"}
        if (more[0] == more[1] and not field_test) or (path, row, col) in done:
            continue
        done.add((path, row, col))
        t = texts.setdefault(path, open(path, encoding="utf-8").read().split("\n"))
        k = col - 1 + shift.get((path, row), 0)
        s = re.match(r"c\.[A-Za-z0-9_'.-]*|\(not-(?:true|false) (?:_|[\w.'-]+|\([^()]*\)) (c\.[A-Za-z0-9_'.-]*)\)", t[row - 1][k:])
        if not s:
            print("left: %s:%d:%d not" % (path, row, col))
            continue
        if field_test:
            new = "(not-%s _ %s)" % (ends[1], s.group(0))
        elif more[0] > more[1]:
            new = "(ap not %s)" % s.group(0)
        elif s.group(1):
            new = s.group(1)
        else:
            new = "(not-%s _ %s)" % (s.group(0).rsplit(".", 1)[1], s.group(0))
        t[row - 1] = t[row - 1][:k] + new + t[row - 1][k + s.end() :]
        shift[(path, row)] = shift.get((path, row), 0) + len(new) - s.end()
        mended += 1
        if "ap not" in new:
            uses = "\n".join(l for l in t if l.startswith("use "))
            lacks = [n for n in ("ap", "not") if not re.search(r"(?<![A-Za-z0-9_'-])%s(?![A-Za-z0-9_'-])" % n, uses)]
            if lacks:
                j = max(j for j, l in enumerate(t) if l.startswith("use "))
                t[j:j] = ["use Rattle.std.proofs.Common.{%s}" % ", ".join(lacks)]
                break
    for path, t in texts.items():
        open(path, "w", encoding="utf-8").write("\n".join(t))
    print("mended", mended)


main()
