#!/usr/bin/env python3
"""Turns each proofs/F/Proof.antt that walks the code to Invariants.antt and Answers.antt, or to today's names where it stays by hand.

usage: turn_proofs.py OLD NEW NAMES CRATE..

OLD is the tree before port.py, NEW the tree after it (rewritten in place), NAMES a folder with CRATE/names.json, which
`rattle check --generated NAMES/CRATE --old-names` writes. A proof stays by hand where a lemma of its own takes a place of the code.
"""

import json
import os
import re
import sys

TOK = re.compile(r"--[^\n]*|\"(?:[^\"\\]|\\.)*\"|«[^»]*»|[^\s(){};,@\"«»\[\]\\.]+(?:\.[^\s(){};,@\"«»\[\]\\.]+)*\.?|\s+|.", re.S)
PLAIN = re.compile(r"[^\s(){};,@\[\]]")
PLACE = r"(?!Need-|InvT-|MeasureT-|invariant-|decreases-|spec\b|close\b)"
SIGPLACE = re.compile(r"[({]([^(){}:]+) : tie\." + PLACE + r"([^\s(){}]+)(?: [^(){}:]*)?\s*[)}]")


class Fail(Exception):
    pass


# ---- the declarations of a file


def blocks(text):
    """Its parts at column 0: comments, blank lines and declarations with what is indented below them."""
    out = []
    for line in text.split("\n"):
        if line.startswith("--"):
            out.append(("c", [line]))
        elif not line.strip():
            out.append(("b", [line]))
        elif line[0] in " \t)":
            between = []
            while out and out[-1][0] in "bc":
                between = out.pop()[1] + between
            out[-1][1].extend(between + [line])
        else:
            out.append(("d", [line]))
    return out


def head(line):
    m = re.match(r"(?:(?:abbrev|unfoldable|pub|mutual)\s+)*(?:\(?)([^\s:({]+)", line)
    return m.group(1) if m else None


def decls(text):
    res, comment = [], []
    for kind, lines in blocks(text):
        first = lines[0]
        if kind == "b":
            comment = []
        elif kind == "c":
            comment.append(first)
        elif first.startswith("use "):
            res.append({"kind": "use", "lines": lines})
            comment = []
        elif first.startswith(("module ", "pub module ")):
            res.append({"kind": "module", "lines": comment + lines})
            comment = []
        elif first.startswith("unfolding"):
            res[-1]["unf"] = lines
        else:
            is_sig = re.match(r"(?:(?:abbrev|unfoldable|pub)\s+)*[^\s:({]+\s*(?:\{[^}]*\}\s*)?:( |$)", first)
            if is_sig or first.startswith(("pub data", "data", "pub record", "record", "infix")):
                res.append({"kind": "decl", "name": head(first), "sig": lines, "unf": [], "eqs": [], "comment": comment})
            elif res and res[-1]["kind"] == "decl":
                res[-1]["eqs"].append(comment + lines)
            else:
                res.append({"kind": "other", "lines": comment + lines})
            comment = []
    return res


def joined(lists):
    return "\n".join("\n".join(it) for it in lists)


# ---- names


def norm(s):
    return re.sub(r"[-_]+", "-", s).replace("′", "'")


def old_label(s):
    if s.startswith("loop"):
        for a, b in ((r"-holds(-\d+)?$", r"-init\1"), (r"-less(-\d+)?$", r"-smaller\1"), (r"-again(-\d+)?$", r"-preserved\1")):
            if re.search(a, s):
                return re.sub(a, b, s)
    return s


def alike(byold, key):
    """The goal that is meant where only a temporary's number or the way a place is read is another."""
    for a, b in (("array-read-", "element-copy-out-"), ("array-read-", "array-copy-out-")):
        if key.startswith(a) and b + key[len(a) :] in byold:
            return b + key[len(a) :]
    m = re.match(r"(.*-)t\d+(-\d+)?$", key)
    if m:
        same = [k for k in byold if re.fullmatch(re.escape(m.group(1)) + r"t\d+" + (m.group(2) or ""), k)]
        if len(same) == 1:
            return same[0]
    return None


FIXED = {"taken": "true", "left": "false", "inv": "invariant", "type-inv": "type_inv", "ok": "type_inv"}


class Places:
    """The places of a function's code, and what projections of them are called now."""

    def __init__(self, names, muts):
        self.rows = names["places"]
        self.by_name = names["places_by_name"]
        self.index = {norm(p[0]): i for i, p in enumerate(self.rows)}
        self.arms = names.get("arms") or [None] * len(self.rows)
        self.muts = muts
        self.params = names.get("params") or {}
        self.args_of = {}
        for old, new in names.get("args", []):
            m = re.match(r"\.args \.(.*)", old)
            if m:
                self.args_of[norm(m.group(1))] = new.split(".")[-1]
        self.memo = {}
        self.stands = {}

    def up(self, i):
        u = self.rows[i][1]
        return self.index.get(norm(u)) if u else None

    def above(self, i):
        out = []
        while i is not None:
            out.append(i)
            i = self.up(i)
        return out

    def find(self, label):
        i = self.index.get(norm(label))
        return i if i is not None else self.index.get(norm(re.sub(r"(\d+)$", r"-\1", label)))

    def typed(self, label):
        """The place that a lemma's parameter is of: of an arm's places the last, which has what the arm gives."""
        i = self.find(label)
        arm = self.arms[i] if i is not None else None
        if not arm:
            return i
        return max((j for j, a in enumerate(self.arms) if a and a[0] == arm[0]), key=lambda j: self.arms[j][1])

    def steps(self, i, j):
        """How many records lie between place i and place j above it; None where j is not above it."""
        chain = self.above(i)
        if j not in chain:
            return None
        whole = self.whole(chain)
        chain = chain[: chain.index(j) + 1]
        n = 0
        for x, y in zip(chain, chain[1:]):
            ax, ay = self.arms[x], self.arms[y]
            n += not (ax and ay and ax[0] == ay[0] and ax[1] == ay[1] + 1 and whole[ax[0]])
        return n

    def whole(self, chain):
        """Whether an arm's places are one: where the chain has its last."""
        out = {}
        for j in chain:
            arm = self.arms[j]
            if arm and arm[0] not in out:
                out[arm[0]] = arm[1] == max(a[1] for a in self.arms if a and a[0] == arm[0])
        return out

    def fields(self, i):
        """An old step -> rows of old path, new path and the function called, the longest path first."""
        if i not in self.memo:
            out, chain = {}, self.above(i)
            whole = self.whole(chain)
            for j in chain:
                old, new = self.rows[j][2]
                if old and not (self.arms[j] and whole[self.arms[j][0]]):
                    out.setdefault(norm(old), []).append(([], [new], self.rows[j][3], j))
            for j in chain:
                arm = self.arms[j] if self.arms[j] and whole[self.arms[j][0]] else None
                for field, step, path in arm[2] if arm else []:
                    out.setdefault(norm(step), []).append(([str(x) for x in path], [arm[0], field], None, j))
            for k in out:
                out[k].sort(key=lambda r: -len(r[0]))
            self.memo[i] = out
        return self.memo[i]

    def anywhere(self):
        if None not in self.memo:
            out = {}
            for i in range(len(self.rows)):
                for k, rows in self.fields(i).items():
                    out.setdefault(k, rows)
            self.memo[None] = out
        return self.memo[None]

    def part_of_arm(self, parts, i, at):
        """Whether a path goes only a part of the way to what an arm gives."""
        rows = self.fields(at).get(norm(parts[0]), [])
        return bool(rows) and not any(r[0] == parts[1 : 1 + len(r[0])] for r in rows if r[0]) and any(r[0][: len(parts) - 1] == parts[1:] for r in rows if len(r[0]) > len(parts) - 1)

    def turned(self, parts, i, at):
        """The projections of a path from place i, which begins with no .before; the variable itself stands for place `at`."""
        f = self.fields(at)
        p, rest = parts[0], parts[1:]
        if p.endswith(("_lem", "-lem")) and norm(p) not in f and norm(p[:-4]) in self.anywhere():
            p = p[:-4]
        if norm(p) not in f and norm(p).lower() not in f and p not in ("args", "requires", "pre", "ranges", "fits", "well_formed", "lifetimes"):
            f = self.anywhere()
        if norm(p) not in f and p.endswith(("_lem", "-lem")) and norm(p[:-4]) in f:
            p = p[:-4]
        key = norm(p)
        if key not in f and key.lower() in f:
            key = key.lower()
        above = self.above(i)
        rows = f.get(key, [])
        for path, to, called, _ in [r for r in rows if r[3] in above] or rows:
            if rest[: len(path)] == path:
                more = rest[len(path) :]
                if more and more[0] in FIXED:
                    w, last = more[0], to[-1]
                    if (w in ("taken", "left") and (last.startswith("if") or last.endswith("-test"))) or (w == "inv" and last.startswith("loop")) or (w in ("ok", "type-inv") and called):
                        more[0] = FIXED[w]
                if called and len(more) > 1 and more[0] in ("new", "auto") and re.fullmatch("[01]", more[1]):
                    n = 1
                    while n < len(more) and more[n] == "1":
                        n += 1
                    k = n - 1
                    n += n < len(more) and more[n] == "0"
                    ms = self.params.get(called) or self.muts(called)
                    if ms and k < len(ms):
                        more = [more[0], ms[k]] + more[n:]
                # a test of `!x` is told of x itself now
                if to[-1].startswith("if-not-") and more and more[0] in ("true", "false"):
                    return to + more + ["\1"]
                return to + more
        if p == "args" and rest and norm(rest[0]) in self.args_of:
            return ["args", self.args_of[norm(rest[0])]] + rest[1:]
        if p == "good":
            return ["well_formed"] + rest
        if p == "pre":
            return ["requires"] + rest
        if p == "fits" and rest:
            return ["ranges"] + rest
        return [p] + rest


# ---- texts


def turn(text, pl, env, helpers, left):
    """Rewrites what text cites of places. env: variable -> place; helpers: a lemma -> the places of its leading arguments."""
    env, out, recent, pending = dict(env), [], [], None
    opened, closed, fresh, dotted, lam, alias, skip = [], None, False, False, None, {}, False
    for t in TOK.findall(text):
        # a lemma that stands for a place, applied: (f c).STEP
        if t == "." and closed is not None and not dotted:
            out.append(t)
            dotted = True
            continue
        if dotted and PLAIN.match(t):
            dotted = False
            parts = [x for x in t.split(".") if x]
            k = 0
            while k < len(parts) and parts[k] == "before" and pl.up(closed) is not None:
                closed = pl.up(closed)
                k += 1
            if k < len(parts):
                res = pl.turned(parts[k:], closed, closed)
                out.append(".".join(x for x in res if x != "\1") + ("." if t.endswith(".") else ""))
            else:
                out.append(t)
            recent.append(t)
            closed = None
            continue
        closed, dotted = None, False
        if t == "(":
            opened.append(None)
            fresh = True
        elif t == ")" and opened:
            closed = opened.pop()
        elif not t.isspace():
            if fresh and opened:
                opened[-1] = pl.stands.get(t)
            fresh = False
        if t.isspace() or t.startswith("--"):
            out.append(t)
            continue
        if t.startswith('"') or not PLAIN.match(t):
            if t != "(":
                pending = None
            out.append(t)
            recent.append(t)
            continue
        trail = ""
        if t.endswith(".") and len(t) > 1:
            t, trail = t[:-1], "."
        parts = t.split(".")
        if skip and t == "in":
            skip = False
            continue
        if parts[0] in alias and len(parts) > 1:
            parts = alias[parts[0]] + parts[1:]
        parts = parts[:1] + [{"type-inv": "type_inv", "pre": "requires"}.get(x, x) for x in parts[1:]]
        t = ".".join(parts)
        first = parts[0]
        recent.append(t)
        if first == "tie" and len(parts) == 2:
            out.append("\0" + parts[1] + "\0" + trail)
            pending = None
            continue
        # LEMMA (λ c. ..): c is of the place that the lemma's argument takes
        if pending and isinstance(pending[0], tuple):
            if first == "λ":
                continue_with = pending[0][1]
                pending = None
                out.append(t + trail)
                lam = continue_with
                continue
        if lam is not None:
            env[first] = lam
            lam = None
        want = None
        if pending:
            want, pending = pending[0], pending[1:]
            if isinstance(want, tuple):
                want = None
        # let x = LEMMA .. in, where the lemma stands for a place
        if first in pl.stands and len(parts) == 1 and len(recent) >= 4 and recent[-2] == "=" and recent[-4] == "let":
            env[recent[-3]] = pl.stands[first]
        if first not in env:
            if "before" in parts[1:]:
                left.append(f"not followed: {t}")
            if len(parts) == 1 and any(x is not None for x in helpers.get(first, [])):
                pending = helpers[first]
            out.append(t + trail)
            continue
        at = here = env[first]
        k = 1
        while k < len(parts) and parts[k] == "before" and pl.up(here) is not None:
            here = pl.up(here)
            k += 1
        while k < len(parts) and parts[k] == "before":
            k += 1
        rest = parts[k:]
        if rest:
            if norm(rest[0]) not in pl.fields(at) and norm(rest[0]).lower() not in pl.fields(at):
                # the step lies below what the variable stands for: from another one
                other = [v for v in env if norm(rest[0]) in pl.fields(env[v])]
                if other:
                    first, at, here = other[0], env[other[0]], env[other[0]]
            if len(recent) >= 4 and recent[-2] == "=" and recent[-4] == "let" and pl.part_of_arm(rest, here, at):
                alias[recent[-3]] = [first] + ["before"] * 0 + rest
                while out.pop() != "let":
                    pass
                skip = True
                continue
            res = [first] + pl.turned(rest, here, at)
        else:
            goal = want if want is not None else here
            n = pl.steps(at, goal)
            if n is None:
                # the place lies below what the variable stands for: from another one
                below = [(pl.steps(env[v], goal), v) for v in env if pl.steps(env[v], goal) is not None]
                n, first = min(below) if below else (0, first)
                if not below:
                    left.append(f"{t} is no {pl.by_name[goal]}")
            res = [first] + ["before"] * n
            if len(recent) >= 4 and recent[-2] == "=" and recent[-4] == "let":
                env[recent[-3]] = next(x for x in pl.above(at) if pl.steps(at, x) == n) if first in env and env[first] == at else goal
        if res[-1] == "\1":
            out.append("(ap not " + ".".join(res[:-1]) + ")" + trail)
        else:
            out.append(".".join(res) + trail)
    return "".join(out)


def sub_words(text, sub):
    out = []
    for t in TOK.findall(text):
        if not t.startswith(("--", '"')) and not t.isspace() and PLAIN.match(t):
            trail = ""
            if t.endswith(".") and len(t) > 1:
                t, trail = t[:-1], "."
            parts = t.split(".")
            parts[0] = sub.get(parts[0], parts[0])
            t = ".".join(parts) + trail
        out.append(t)
    return "".join(out)


def hidden(body, sub):
    """A variable of the loop that a binder hides."""
    for m in re.finditer(r"λ ([^.]*)\.|[({]([^(){}:]*) : |let ([^\s:]+)", body):
        for w in re.findall(r"[^\s(){}:]+", next(g for g in m.groups() if g is not None)):
            if w in sub:
                return w
    return None


def leading(sig, pl):
    """The places of a declaration's leading explicit parameters."""
    m = re.match(r"(?s)[^:]*: (.*)", sig)
    t, out = m.group(1) if m else "", []
    while True:
        m = re.match(r"\s*tie\." + PLACE + r"([^\s(){}]+)[^→(){}]*→\s*", t)
        if m:
            out.append(pl.typed(m.group(1)))
            t = t[m.end() :]
            continue
        m = re.match(r"\s*\(\(\w+ : tie\." + PLACE + r"([^\s(){}]+)[^(){}]*\) →", t)
        if m and pl.typed(m.group(1)) is not None:
            return out + [("λ", pl.typed(m.group(1)))]
        m = re.match(r"\s*\(([^(){}]*(?:\([^()]*\))?[^(){}]*)\)\s*(?:→\s*)?", t)
        if not m:
            return out
        ns, _, ty = m.group(1).partition(" : ")
        k = re.match(r"tie\.(\S+)", ty.strip())
        out += [pl.typed(k.group(1)) if k else None] * len(ns.split())
        t = t[m.end() :]


def places_in(sig, pl):
    env = {}
    for m in SIGPLACE.finditer(sig):
        if pl.typed(m.group(2)) is not None:
            env.update((v, pl.typed(m.group(2))) for v in m.group(1).split())
    return env


# ---- one proof


class Turned:
    def __init__(self, old, new, names, fn, muts, hand):
        self.pl, self.names, self.fn, self.hand = Places(names, muts), names, fn, hand
        self.needs, self.asked = names["needs"], names["asked_at"]
        self.byold = {}
        for i, (o, _) in enumerate(self.needs):
            self.byold.setdefault(norm(o), i)
        self.settled = {norm(x) for x in names.get("settled", [])}
        self.loopname = {norm(l[0][0]): l[0][1] for l in names["loops"]}
        self.left, self.items, self.inv, self.done, self.helpers = [], [], [], {}, {}
        self.invs, self.mus = {}, {}
        nd = decls(new)
        od, ndd = ([d for d in it if d["kind"] in ("decl", "module")] for it in (decls(old), nd))
        if len(od) != len(ndd):
            raise Fail(f"declarations {len(od)} before, {len(ndd)} after")
        for o, n in zip(od, ndd):
            self.one(o, n)
        if hand:
            self.close()
        self.left += ["not read: " + d["lines"][0][:60] for d in nd if d["kind"] == "other"]
        self.uses = ["\n".join(d["lines"]) for d in nd if d["kind"] == "use"]

    def named(self, m):
        x = m.group(1)
        i = self.pl.typed(x)
        if i is not None:
            return "tie." + self.pl.by_name[i]
        for word in ("invariant-", "decreases-"):
            if x.startswith(word) and norm(x[len(word) :]) in self.loopname:
                return "tie." + word + self.loopname[norm(x[len(word) :])]
        if x.startswith("Need-") and norm(old_label(x[5:])) in self.byold:
            return "tie.Need-" + self.needs[self.byold[norm(old_label(x[5:]))]][1]
        self.left.append(f"no name for {x}")
        return "tie." + x

    def add(self, *lines):
        self.items.append(re.sub(r"\n[ \t]+(?=\n)", "", re.sub("\0([^\0]*)\0", self.named, "\n".join(lines))))

    def turn(self, text, env):
        return turn(text, self.pl, env, self.helpers, self.left)

    def one(self, o, n):
        if o["kind"] == "module":
            return self.block("\n".join(n["lines"]))
        osig = " ".join(o["sig"])
        if re.search(r"statement M\b", osig):
            return None
        m = re.search(r": tie\.(\S+)", osig)
        label = m.group(1) if m else ""
        if re.match(r"(InvT|MeasureT)-", label):
            return self.loop(n, *re.match(r"(InvT|MeasureT)-(\S*)", label).groups())
        if label.startswith("Need-") and "(" not in osig.split(": tie.")[0]:
            return self.need(n, label[5:])
        return self.helper(n)

    def block(self, text):
        lines = text.split("\n")
        top = next(l for l in lines if l.startswith(("module", "pub module")))
        env, lead = {}, []
        for m in re.finditer(r"\(([^(){}]*(?:\([^()]*\))?[^(){}]*)\)", top):
            ns, _, ty = m.group(1).partition(" : ")
            k = re.match(r"tie\.(\S+)", ty.strip())
            p = self.pl.typed(k.group(1)) if k else None
            lead += [p] * len(ns.split())
            env.update((v, p) for v in ns.split() if p is not None)
        res, own = [], []
        for chunk in re.split(r"(?m)(?=^  (?:(?:pub|abbrev|unfoldable) )*[^\s:]+ :)", text):
            res.append(self.turn(chunk, env | places_in(chunk, self.pl)))
            m = re.match(r"  (?:(?:pub|abbrev|unfoldable) )*([^\s:]+) :", chunk)
            k = re.match(r"  (?:(?:pub|abbrev|unfoldable) )*([^\s:]+) : tie\." + PLACE + r"([^\s(){}]+)[^→\n]*\n", chunk)
            if k and self.pl.typed(k.group(2)) is not None:
                to = env[k.group(1)] = self.pl.stands[k.group(1)] = self.pl.typed(k.group(2))
                # what it stands for: the place of its type, from the block's own
                below = [(self.pl.steps(env[v], to), v) for v in env if v != k.group(1) and self.pl.steps(env[v], to) is not None]
                if below:
                    n, v = min(below)
                    res[-1] = re.sub(r"(?m)^(  " + re.escape(k.group(1)) + r" =) \S+$", lambda q: f"{q.group(1)} {v}" + ".before" * n, res[-1])
            if m:
                own.append((m.group(1), leading(re.split(r"\n  " + re.escape(m.group(1)) + r"(?!\S)", chunk)[0], self.pl)))
        for name, more in own:
            self.helpers[name] = lead + more
        self.add("".join(res))

    def loop(self, n, kind, which):
        at = [i for i, l in enumerate(self.names["loops"]) if norm(l[0][0]) == norm(which)]
        if not at:
            raise Fail(f"no loop {which}")
        (_, name), vars_ = self.names["loops"][at[0]]
        changed = self.names["changed"][at[0]]
        word = ("invariant-" if kind == "InvT" else "decreases-") + name
        (self.invs if kind == "InvT" else self.mus)[norm(which)] = n["name"]
        if self.hand:
            return self.add(*n["comment"], re.sub(r": tie\.\S+", f": tie.{word}", "\n".join(n["sig"])), *n["unf"], joined(n["eqs"]))
        if len(n["eqs"]) != 1:
            raise Fail("an invariant by cases")
        lhs, body = "\n".join(n["eqs"][0]).split("=", 1)
        params = lhs.split()[1:]
        if len(params) != len(vars_) + sum(changed):
            raise Fail(f"{len(params)} parameters of {which}, for {vars_} {changed}")
        sub = {p: f"l.initial.{v}" if c else f"l.{v}" for p, v, c in zip(params, vars_, changed)}
        sub.update(zip(params[len(vars_) :], (f"l.{v}" for v, c in zip(vars_, changed) if c)))
        sub.pop("_", None)
        if hidden(body, sub):
            self.left.append(f"{which}: a binder hides {hidden(body, sub)}")
        self.inv.append("\n".join(n["comment"] + [f"abbrev pub {word} : goal.{word}"] + n["unf"]) + f"\n{word} l =" + re.sub(r"\(to_z w\d+ (l\.[\w.]+)\)", r"\1", sub_words(body, sub)))

    def need(self, n, label):
        key = norm(old_label(label))
        if key not in self.byold and key not in self.settled:
            key = alike(self.byold, key) or key
        sig, whole = "\n".join(n["sig"]), joined(n["eqs"])
        if key not in self.byold:
            if key not in self.settled:
                self.left.append(f"no goal for {label}")
                self.items.append("\n".join("-- left: " + x for x in (sig + "\n" + whole).split("\n")))
            return
        i = self.byold[key]
        new, at = self.needs[i][1], self.pl.find(self.asked[i][0])
        if not self.hand and whole.split("=", 1)[-1].strip() == "search rules" and not n["unf"]:
            return
        lines = []
        for e in n["eqs"]:
            e = "\n".join(e)
            words = e.split("=", 1)[0].split()
            e = self.turn(e, {words[1]: at} if len(words) > 1 else {})
            if not self.hand:
                e = re.sub(r"^" + re.escape(n["name"]) + r"(?!\S)", new, e)
                e = re.sub(r"^(\S+ \S+) (κs|_) =", r"\1 =", e)
            lines.append(e)
        top = re.sub(r": tie\.\S+", f": tie.Need-{new}", sig) if self.hand else f"pub {new} : goal.{new}"
        self.done[i] = n["name"]
        self.add(*n["comment"], top, *n["unf"], *lines)

    def helper(self, n):
        sig = "\n".join(n["sig"])
        env, lead = places_in(sig, self.pl), leading(sig, self.pl)
        out = [self.turn(sig, env)]
        for e in n["eqs"]:
            e = "\n".join(e)
            words = re.sub(r"\([^()]*\)", "_", re.sub(r"\{[^{}]*\}", "", e.split("=", 1)[0])).split()
            out.append(self.turn(e, env | {w: p for w, p in zip(words[1:], lead) if isinstance(p, int)}))
        self.helpers[n["name"]] = lead
        k = re.search(r"(?:→|:) tie\." + PLACE + r"([^\s(){}]+)[^→:()]*$", sig)
        if k and self.pl.typed(k.group(1)) is not None:
            self.pl.stands[n["name"]] = self.pl.typed(k.group(1))
        self.add(*n["comment"], out[0], *n["unf"], *out[1:])

    def close(self):
        word = []
        for l in self.names["loops"]:
            word += [self.invs[norm(l[0][0])], self.mus[norm(l[0][0])]]
        for i, (_, new) in enumerate(self.needs):
            if i not in self.done:
                self.done[i] = "new_" + new
                more = " κs" if re.search(r"-requires(-|$)", new) else ""
                self.add(f"new_{new} : tie.Need-{new} {' '.join(word)}".rstrip(), f"new_{new} c{more} = search rules")
                self.left.append(f"a new goal {new}")
        args = " ".join(word + [self.done[i] for i in range(len(self.needs))])
        self.add(f"pub {self.fn}_spec : {{M : Type 1}} → statement M", f"{self.fn}_spec = tie.close (tie.spec {args})")


# ---- imports


def with_not(uses, text):
    if "(ap not " not in text:
        return uses
    got = " ".join(uses)
    more = []
    if not re.search(r"Core\.Path\.\{[^}]*\bap\b", got):
        more.append("use mathlib.Core.Path.{ap}")
    if not re.search(r"Core\.Bool\.\{[^}]*\bnot\b(?!-)", got):
        more.append("use mathlib.Core.Bool.{not}")
    return more + uses


def filter_use(u, text):
    m = re.match(r"use (\S+?)\.\{(.*)\}$", u.replace("\n", " "), re.S)
    words = set(re.findall(r"[^\s(){};,@\[\].]+", text))
    if not m:
        m = re.match(r"use (\S+)(?: as (\S+))?$", u)
        alias = m.group(2) or m.group(1).split(".")[-1]
        return u if re.search(r"(?<![^\s(){};,\[\]])" + re.escape(alias) + r"\.", text) or re.search(r"\.(Statement|Tie)\b", u) else None
    keep = []
    for it in (x.strip() for x in m.group(2).split(",")):
        name = it.split(" as ")[-1].strip()
        if name == "[]":
            ok = "[]" in text
        elif "◌" in name:
            ok = all(o in text for o in name.split("◌") if o)
        else:
            ok = name in words
        if it and ok:
            keep.append(it)
    return f"use {m.group(1)}." + "{" + ", ".join(keep) + "}" if keep else None


def muts_of(tree):
    """crate::..::f -> the names of its &mut parameters."""
    found, seen = {}, set()

    def read(c):
        for folder, _, files in os.walk(f"{tree}/crates/{c}/src"):
            for x in files:
                if x.endswith(".rt"):
                    t = re.sub(r"//[^\n]*", "", open(f"{folder}/{x}").read())
                    for m in re.finditer(r"\bfn (\w+)(?:<[^>]*>)?\(([^)]*)\)", t):
                        ps = [q.strip().split(":")[0].replace("mut ", "").strip() for q in m.group(2).split(",") if re.search(r":\s*&\s*(?:'\w+\s+)?mut\b", q)]
                        found.setdefault((c, m.group(1)), ["self"] * ("&mut self" in m.group(2)) + ps)

    def ask(path):
        c, f = path.split("::")[0], path.split("::")[-1]
        if c not in seen:
            seen.add(c)
            read(c)
        return found.get((c, f))

    return ask


def main():
    old_tree, new_tree, names_dir = sys.argv[1:4]
    answered = by_hand = left_over = 0
    muts = muts_of(new_tree)
    for c in sys.argv[4:]:
        names = json.load(open(f"{names_dir}/{c}/names.json"))
        base = f"{new_tree}/crates/{c}/proofs"
        for folder, _, files in os.walk(base):
            if "Proof.antt" not in files:
                continue
            rel = os.path.relpath(folder, base)
            path = rel.replace("/", ".")
            key, old_file = f"Rattle-{c}-proofs.{path}.Lts", f"{old_tree}/crates/{c}/proofs/{rel}/Proof.antt"
            if key not in names or not os.path.exists(old_file):
                print(f"{c} {path}: no names, or no older file")
                left_over += 1
                continue
            new, old = open(f"{folder}/Proof.antt").read(), open(old_file).read()
            hand = bool(re.search(r"tie\." + PLACE, old) or re.search(r"→ tie\.Need|\([^()]* : tie\.Need", old))
            try:
                it = Turned(old, new, names[key], path.split(".")[-1], muts, hand)
            except (Fail, KeyError) as e:
                print(f"{c} {path}: {e!r}")
                left_over += 1
                continue
            for l in it.left:
                print(f"{c} {path}: {l}")
            top = re.match(r"(?:--[^\n]*\n)*", new).group(0).rstrip("\n").split("\n")
            top = [l for l in top if l]
            full = f"Rattle.{c}.proofs.{path}"
            uses = it.uses
            if hand:
                t = "\n\n".join(it.items)
                if "search rules" in t and not any("Rules.{rules}" in u for u in uses):
                    uses.insert(0, "use borrow.Author.Rules.{rules}")
                open(f"{folder}/Proof.antt", "w").write("\n".join(top + [x for x in (filter_use(u, t) for u in with_not(uses, t)) if x]) + "\n\n" + t + "\n")
                by_hand += 1
                continue
            uses = [u for u in uses if not re.search(r"\.(Statement|Tie)\b", u)]
            os.remove(f"{folder}/Proof.antt")
            moved, inv_text = [], "\n".join(it.inv)
            again = True
            while again:
                again = False
                for x in it.items:
                    m = re.match(r"(?:--[^\n]*\n)*((?:(?:abbrev|unfoldable|pub) )*)([^\s:]+) :(?! goal\.)", x)
                    if m and x not in moved and m.group(2) in re.findall(r"[^\s(){};,@\[\].]+", inv_text + "\n".join(moved)):
                        moved.append(x)
                        again = True
            if moved:
                own = []
                for x in [y for y in it.items if y in moved]:
                    m = re.match(r"((?:--[^\n]*\n)*)((?:(?:abbrev|unfoldable|pub) )*)([^\s:]+)", x)
                    own.append(m.group(3))
                    words = m.group(2) if "pub" in m.group(2) else m.group(2) + "pub "
                    it.inv.insert(len(own) - 1, m.group(1) + words + x[m.start(3) :])
                it.items = [y for y in it.items if y not in moved]
                uses = uses + [f"use {full}.Invariants." + "{" + ", ".join(own) + "}"]
            for file, parts, last, lead in (("Invariants", it.inv, "Given", []), ("Answers", it.items, "Goals", top)):
                t = "\n\n".join(parts)
                if ": goal." in t or "-- left" in t:
                    open(f"{folder}/{file}.antt", "w").write("\n".join(lead + [x for x in (filter_use(u, t) for u in with_not(uses, t)) if x and not (file == "Invariants" and ".Invariants." in x)] + [f"use {full}.{last} as goal"]) + "\n\n" + t + "\n")
            if not os.listdir(folder):
                os.rmdir(folder)
            answered += 1
    print("turned", answered, "by hand still", by_hand, "left", left_over)


main()
