#!/usr/bin/env python3
"""Turns proofs that walk the code, proofs/F/Proof.antt, into proofs/F/Invariants.antt and proofs/F/Answers.antt.

usage: python3 tools/answers.py NAMES CRATE [FUNCTION ..]

NAMES is the names.json that `rattle check --generated DIR --old-names` writes for the crate, which has each old name of a goal, a place and a
step beside its new one. A file goes by these: each goal is answered under its new name, a path through the places becomes the step alone,
and what the check finds by itself is left out. It goes by text, so the check decides; what it cannot turn it says.
"""

import json
import os
import re
import sys

NAME = r"[^\s(){}\[\].;,@\"λ→⌜⌝]+"
TRIVIAL = {"search rules", "omega arith"}


def plain(word):
    return word.replace("_", "-")


def split_args(text):
    """The arguments of a call, which stand apart by spaces outside of brackets."""
    args, depth, word = [], 0, ""
    for ch in text:
        if ch in "([{":
            depth += 1
        if ch in ")]}":
            depth -= 1
        if ch.isspace() and depth == 0:
            if word:
                args.append(word)
            word = ""
        else:
            word += ch
    if word:
        args.append(word)
    return args


def blocks(lines):
    """The file's top-level pieces: a comment, a use line, or a declaration with all that belongs to it."""
    out, now = [], []

    def push():
        if now:
            out.append("\n".join(now).rstrip("\n"))
            now.clear()

    for line in lines:
        if not line.strip():
            push()
            continue
        now.append(line)
    push()
    # A piece that goes on after an empty line is indented.
    whole = []
    for it in out:
        if whole and it[0] == " ":
            whole[-1] += "\n\n" + it
        else:
            whole.append(it)
    return whole


class Turn:
    def __init__(self, crate, function, names):
        self.crate, self.function, self.names = crate, function, names
        self.said = []
        places = names["places"]
        self.parent = {p[0]: p[1] for p in places}
        self.new_place = dict(zip((p[0] for p in places), names["places_by_name"]))
        self.steps = {}
        for p in places:
            self.steps.setdefault(plain(p[2][0]), []).append((p[0], p[2][1]))
        self.arms = {p[0]: a for p, a in zip(places, names["arms"])}
        self.helpers = {}
        self.wanted = set()

    def say(self, text):
        self.said.append(text)

    # ---- paths

    def line_of(self, place):
        """The place and those before it."""
        line = []
        while place:
            line.append(place)
            place = self.parent.get(place)
        return line

    def arm(self, line, step, rest):
        """The arm's name and field for an old step and path."""
        best = None
        for place in line:
            arm = self.arms.get(place)
            if not arm:
                continue
            for new, old, path in arm[2]:
                if plain(old) == plain(step) and path == rest[: len(path)] and not new.endswith("-own"):
                    if best is None or len(path) > best[0]:
                        best = (len(path), arm[0], new)
        return best

    def step(self, line, old):
        known = self.steps.get(plain(old), [])
        for place in line:
            for at, new in known:
                if at == place:
                    return new
        return known[0][1] if known else None

    def path(self, root, parts, place):
        """The parts of a path behind the variable: without the places, and each step by its new name. Also what it ends in."""
        line = self.line_of(place)
        while parts and parts[0] == "before":
            parts = parts[1:]
            if line and len(line) > 1:
                line = line[1:]
        whole = self.line_of(place)
        if not parts:
            return root, ("place", line[0] if line else None)
        step, rest = parts[0], parts[1:]
        if step in ("args", "ranges", "requires", "pre", "type_inv", "type-inv", "lifetimes", "well-formed"):
            word = {"pre": "requires", "type-inv": "type_inv", "well-formed": "well_formed"}.get(step, step)
            return self.tail(f"{root}.{word}", word, rest)
        found = self.arm(whole, step, rest)
        if found:
            n, arm, new = found
            return self.tail(f"{root}.{arm}.{new}", new, rest[n:])
        new = self.step(line, step) or self.step(whole, step)
        for p in self.names["places"]:
            if rest and plain(p[2][0]) == plain(step) and p[0] in whole:
                rest = [dict((plain(a), b) for a, b in p[4]).get(plain(rest[0]), rest[0])] + rest[1:]
                break
        if new is None:
            self.say(f"step {step} in {root}.{'.'.join(parts)}")
            new = step
        return self.tail(f"{root}.{new}", "loop" if plain(step).startswith("loop") and not step.endswith("test") else new, rest)

    def tail(self, root, kind, rest):
        out = root
        last = kind
        for word in rest:
            word = {"type-inv": "type_inv", "well-formed": "well_formed"}.get(word, word)
            if last in ("args", "ranges", "new", "auto", "initial"):
                word = word.replace("-", "_") if last != "auto" else word
            if word == "inv":
                word = "invariant"
            if word == "pre":
                word = "requires"
            if last == "loop" and word not in ("invariant", "auto"):
                word = word if word.endswith("-index") else word.replace("-", "_") if not word.endswith("-end") else word
            out += "." + word
            last = word
        return out, ("path", last)

    # ---- terms

    def term(self, text, env, goal):
        """A term, with each path turned. env has, by variable, ('place', P) or ('path', last)."""
        env = dict(env)
        token = re.compile(r"(\s+|" + NAME + r"(?:\." + NAME + r")*|.)", re.S)
        words = token.findall(text)
        out = []
        i = 0
        while i < len(words):
            w = words[i]
            if w == "let":
                # let v [: T] = path in
                m = re.match(r"let\s+(" + NAME + r")\s*=\s*(" + NAME + r"(?:\." + NAME + r")*)\s+in\b", "".join(words[i : i + 12]))
                if m and m[2].split(".")[0] in env:
                    parts = m[2].split(".")
                    new, kind = self.one(parts, env)
                    env[m[1]] = kind
                    skip = len(m[0])
                    n = 0
                    while n < skip:
                        n += len(words[i])
                        i += 1
                    if kind[0] == "place":
                        # An earlier place is the same record now.
                        held = env[parts[0]]
                        env[m[1]] = ("place", kind[1], new, held[3] if len(held) > 3 else held[1])
                        while i < len(words) and words[i].isspace() and "\n" not in words[i]:
                            i += 1
                        if i < len(words) and words[i].isspace() and out and out[-1].isspace():
                            i += 1
                        continue
                    out.append(f"let {m[1]} = {new} in")
                    continue
            head = w.split(".")[0]
            if head in env and re.match(NAME, w):
                new, kind = self.one(w.split("."), env)
                out.append(new)
                i += 1
                continue
            if w in self.helpers and goal:
                # The helper's first argument is a place.
                j = i + 1
                while j < len(words) and words[j].isspace():
                    j += 1
                if j < len(words):
                    place = self.helpers[w]
                    arg = words[j]
                    if arg.split(".")[0] in env and env[arg.split(".")[0]][0] == "place":
                        if goal[0] == "goal":
                            self.wanted.add(place)
                            out.append(f"{w} (goal.at.{goal[1]} c).{self.new_place.get(place, place)}")
                        else:
                            new, kind = self.one(arg.split("."), env)
                            held = env[arg.split(".")[0]]
                            here = held[3] if len(held) > 3 else held[1]
                            if here != place:
                                new = f"(goal.at.{self.new_place.get(here, here)} {new}).{self.new_place.get(place, place)}"
                                self.wanted.add(place)
                            out.append(f"{w} {new}")
                        i = j + 1
                        continue
            out.append(w)
            i += 1
        return "".join(out)

    def one(self, parts, env):
        known = env[parts[0]]
        root = known[2] if len(known) > 2 else parts[0]
        if known[0] == "place":
            return self.path(root, parts[1:], known[1])
        return self.tail(root, known[1], parts[1:])


def turned(crate, function, names, text):
    t = Turn(crate, function, names)
    lines = text.split("\n")
    head, uses, body = [], [], []
    for line in lines:
        if line.startswith("use "):
            uses.append(line)
        elif not uses and line.startswith("--") and not body:
            head.append(line)
        else:
            body.append(line)
    pieces = blocks(body)
    # the last piece: tie.close (tie.spec ..)
    spec = None
    rest = []
    for p in pieces:
        if "tie.close" in p and re.match(r"\s*(--.*\n)*pub \S+-spec|\s*(--.*\n)*pub \S+_spec", p):
            spec = p
        else:
            rest.append(p)
    if spec is None:
        return None, None, ["no tie.spec"]
    m = re.search(r"tie\.spec\s*(.*)\)\s*$", spec, re.S)
    args = split_args(m[1])
    loops = names["loops"]
    needs = names["needs"]
    per = 2 * len(loops)
    given = args[per:]
    if len(given) != len(needs):
        t.say(f"{len(given)} answers for {len(needs)} goals")
    goal_of = {}
    for i, a in enumerate(given):
        if i < len(needs):
            goal_of.setdefault(a, []).append(i)
    loop_of = {}
    for i, a in enumerate(args[:per]):
        loop_of[a] = i
    # what each declaration is
    decls = []
    for p in rest:
        m = re.search(r"(?m)^(?!--)(?:abbrev |unfoldable |pub )*(" + NAME + r")\s*:", p)
        kind = "module" if re.search(r"(?m)^module _", p) else "decl"
        decls.append((m[1] if m and kind == "decl" else None, kind, p))
    # helpers over a place
    aliases = {}
    for name, kind, p in decls:
        m = re.search(r"(?m)^(?:abbrev )?(" + NAME + r") : Type 0\n\1 = tie\.(" + NAME + r")", p)
        if m:
            aliases[m[1]] = m[2]

    def place_of(word):
        if word.startswith("tie."):
            return word[4:]
        return aliases.get(word)

    for name, kind, p in decls:
        if kind == "module":
            m = re.search(r"module _ \((" + NAME + r") : (tie\." + NAME + "|" + NAME + r")", p)
            if m and place_of(m[2]):
                for it in re.findall(r"(?m)^  (?:abbrev |pub )*(" + NAME + r")\s*:", p):
                    t.helpers[it] = place_of(m[2])
        elif name and name not in goal_of and name not in loop_of:
            m = re.search(r"^(?:abbrev |unfoldable |pub )*" + re.escape(name) + r"\s*:\s*(?:\((" + NAME + r") : )?(tie\." + NAME + "|" + NAME + r")", p, re.M)
            if m and place_of(m[2]):
                t.helpers[name] = place_of(m[2])
    places = {plain(k): k for k in t.new_place}
    for k, v in list(t.helpers.items()):
        if v not in t.new_place:
            t.helpers[k] = places.get(plain(v), v)

    inv, ans = [], []
    for name, kind, p in decls:
        comment = "".join(l + "\n" for l in p.split("\n") if l.startswith("--") and not l.startswith("-- ----"))
        code = "\n".join(l for l in p.split("\n") if not l.startswith("--"))
        if not code.strip():
            continue
        if name in loop_of:
            i = loop_of[name]
            (old, new), variables = loops[i // 2]
            changed = names["changed"][i // 2]
            word = ("invariant-" if i % 2 == 0 else "decreases-") + new
            m = re.search(r"(?m)^" + re.escape(name) + r"\s+(.*?)\s*=(?=\s)(.*)$", code, re.S)
            params = m[1].split()
            targets = []
            for v, ch in zip(variables, changed):
                targets.append(f"l.initial.{v}" if ch else f"l.{v}")
            targets += [f"l.{v}" for v, ch in zip(variables, changed) if ch]
            if len(params) != len(targets):
                t.say(f"{word}: {len(params)} parameters for {targets}")
            sub = dict(zip(params, targets))
            sub.pop("_", None)
            term = re.sub(r"(?<![\w'₀.-])(" + "|".join(sorted(map(re.escape, sub), key=len, reverse=True)) + r")(?![\w'₀-])", lambda it: sub[it[1]], m[2]) if sub else m[2]
            unf = re.search(r"(?m)^unfolding .*$", code)
            inv.append(f"{comment}abbrev pub {word} : goal.{word}\n" + (unf[0] + "\n" if unf else "") + f"{word} l ={term}")
            continue
        if name in goal_of:
            for i in goal_of[name]:
                old, new = needs[i]
                at = names["asked_at"][i][0]
                m = re.search(r"(?m)^" + re.escape(name) + r"((?:[ ]+[^\s=(){}:]+)*?)[ ]*=(?=\s)(.*)$", code, re.S)
                if not m:
                    t.say(f"{name}: no equation")
                    continue
                params = [x for x in m[1].split() if x != "κs"]
                c = params[0] if params else "c"
                more = "".join(" " + x for x in params[1:])
                term = t.term(m[2], {c: ("place", at)}, ("goal", new))
                if c != "c":
                    term = re.sub(r"(?<![\w'.-])" + re.escape(c) + r"(?=[.\s)])", "c", term)
                unf = re.search(r"(?m)^unfolding .*$", code)
                if not unf and term.strip() in TRIVIAL:
                    continue
                ans.append(f"{comment}pub {new} : goal.{new}\n" + (unf[0] + "\n" if unf else "") + f"{new} c{more} ={term}")
            continue
        # a helper
        if "tie." in code or any(re.search(r"(?<![\w'.-])" + re.escape(a) + r"(?![\w'-])", code) for a in aliases):
            for a in aliases:
                if re.search(r"(?m)^(?:abbrev )?" + re.escape(a) + r" : Type 0", code):
                    code = ""
            if not code.strip():
                continue
            env = {}
            at = None
            for v, ty in re.findall(r"\((" + NAME + r") : (tie\." + NAME + "|" + NAME + r")(?: invariant-loop[\w-]*)?(?: decreases-loop[\w-]*)?\)", code):
                pl = place_of(ty)
                if pl:
                    pl = pl if pl in t.new_place else places.get(plain(pl), pl)
                    env[v] = ("place", pl)
                    at = at or pl
                    t.wanted.add(pl)
            # the parameter may have another name in the equation
            if name:
                m = re.search(r"(?m)^" + re.escape(name) + r"\s+(" + NAME + r")(?=[\s=])", code)
                if m and at and m[1] not in env:
                    env[m[1]] = ("place", at)

            def place_type(m):
                pl = place_of(m[1])
                pl = pl if pl in t.new_place else places.get(plain(pl), pl)
                return t.new_place.get(pl, m[1])

            code = re.sub(r"(tie\." + NAME + r")((?: invariant-loop[\w-]*)?(?: decreases-loop[\w-]*)?)(?=[\s)])", lambda m: place_type(m) if place_of(m[1]) else m[0], code)
            for a, pl in aliases.items():
                pl = pl if pl in t.new_place else places.get(plain(pl), pl)
                code = re.sub(r"(?<![\w'.-])" + re.escape(a) + r"(?![\w'-])", t.new_place.get(pl, a), code)
            code = t.term(code, env, ("lemma", at))
        ans.append(comment + code)
    # what stands in the last piece itself
    opened = re.search(r"(?m)^unfolding .*$", spec)
    for i, a in enumerate(given[: len(needs)]):
        m = re.match(r"\(λ (" + NAME + r")(?: κs)?\. (.*)\)$", a, re.S)
        if not m:
            continue
        old, new = needs[i]
        stated = re.match(r"returns|.*(requires|init|preserved)$", new)
        if m[2].strip() in TRIVIAL and not (opened and stated):
            continue
        term = t.term(m[2], {m[1]: ("place", names["asked_at"][i][0])}, ("goal", new))
        ans.append(f"pub {new} : goal.{new}\n" + (opened[0] + "\n" if opened and stated else "") + f"{new} c = {term}")
    uses = [u for u in uses if not re.search(r"\.(Statement|Tie)\b", u)]
    files = {}
    if inv:
        files["Invariants.antt"] = "\n".join(head + pruned(uses, "\n".join(inv)) + [f"use Rattle.{crate}.proofs.{function}.Given as goal", ""]) + "\n" + "\n\n".join(inv) + "\n"
    if ans:
        body = "\n\n".join(ans)
        goals = [f"use Rattle.{crate}.proofs.{function}.Goals as goal"]
        if t.wanted:
            goals.append(f"use Rattle.{crate}.proofs.{function}.Goals.{{{', '.join(sorted(t.new_place.get(p, p) for p in t.wanted))}}}")
        files["Answers.antt"] = "\n".join(head + pruned(uses, body) + goals + [""]) + "\n" + body + "\n"
    return files, None, t.said


def pruned(uses, body):
    out = []
    words = set(re.findall(NAME, body)) | {w for it in re.findall(NAME + r"(?:\." + NAME + r")*", body) for w in it.split(".")}
    for u in uses:
        m = re.match(r"use (.*)\.\{(.*)\}$", u)
        if not m:
            out.append(u)
            continue
        keep = []
        for n in m[2].split(", "):
            bare = n.split(" as ")[-1].strip()
            if "◌" in bare:
                if any(part and part in body for part in bare.split("◌")):
                    keep.append(n)
            elif bare in words or bare in body:
                keep.append(n)
        if keep:
            out.append(f"use {m[1]}.{{{', '.join(keep)}}}")
    return out


def main():
    names = json.load(open(sys.argv[1]))
    crate = os.path.basename(os.path.abspath(sys.argv[2]))
    only = set(sys.argv[3:])
    for folder, _, files in sorted(os.walk(os.path.join(sys.argv[2], "proofs"))):
        if "Proof.antt" not in files:
            continue
        function = os.path.relpath(folder, os.path.join(sys.argv[2], "proofs")).replace("/", ".")
        if only and function not in only:
            continue
        key = f"Rattle-{crate}-proofs.{function}.Lts"
        if key not in names:
            print(f"{crate}::{function}: not in names.json")
            continue
        with open(os.path.join(folder, "Proof.antt")) as f:
            text = f.read()
        try:
            made, _, said = turned(crate, function, names[key], text)
        except Exception as e:  # the file is left as it was
            print(f"{crate}::{function}: {type(e).__name__} {e}")
            continue
        if made is None:
            print(f"{crate}::{function}: {said}")
            continue
        os.remove(os.path.join(folder, "Proof.antt"))
        for name, text in made.items():
            with open(os.path.join(folder, name), "w") as f:
                f.write(text)
        for it in said:
            print(f"{crate}::{function}: {it}")


if __name__ == "__main__":
    main()
