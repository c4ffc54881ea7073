#!/usr/bin/env python3
"""Spells the repository's own names of specs/ and proofs/ as its Rattle does: words in snake case, as `first_from` for `firstFrom` and `count_more` for `count-more`.

usage: tools/respell.py [FOLDER]      run once in a tree that port.py has turned; FOLDER is the checkout, else this one

What turns: each definition, lemma, field, constructor and rule that a file of specs/ or proofs/ declares, wherever it is cited: in those files, in the clauses of src/ and in the
lines of must-fail edits. What stays: names of the toolchain's libraries (a name that a file imports from one stays in that file), names that are made for proofs (behind `tie.`, and
the answers that a Proof.antt declares), functions of src/, strings, and all prose but code spans. It prints each name that would meet another, and leaves that one as it is.
"""
import collections
import glob
import os
import re
import sys

WORD = re.compile(r'[^\s(){}.;,@"«»]+')
TOKEN = re.compile(r'--[^\n]*|//[^\n]*|"(?:\\.|[^"\\\n])*"|[^\s(){}.;,@"«»]+')
SPAN = re.compile(r"`[^`\n]*`")
MARK = r"(?:(?:abbrev|unfoldable|pub|private|data|record|ruleset|syntax)\s+)*"
DECLARED = re.compile(r"(?m)^ *(?:module _ )?" + MARK + r'([^\s(){}.;,@"«»:]+(?: [^\s(){}.;,@"«»:]+)*)(?: [({][^\n]*)? :(?=\s|$)')
RULESET = re.compile(r"(?m)^ *(?:pub )?ruleset (\S+)")
ANSWER = re.compile(r"(?m)^ *(?:abbrev )?(?:pub )?(\S+) : (?:tie\.|\{M : Type 1\} → statement M)")
USE = re.compile(r"(?m)^(?:pub |ghost )*use ([^\s;{]+?)\.?(?:\{([^}]*)\})?(?: as (\S+?))?;?$")
# A word beside which a field or a parameter has that name already says what it is of.
GIVEN = {"codeGain": "code_gain_of", "pitchGain": "pitch_gain_of", "pitchGains": "pitch_gains_of", "gainIndex": "gain_index_of", "absolutePitch": "absolute_pitch_of", "zeroResiduals": "zero_residuals_of", "is-nan": "is_nan_lem"}
WORDS = set("abbrev unfoldable pub private data record ruleset syntax where let in module _ use".split())


def new_name(n):
    if n in GIVEN or n == "getD":
        return GIVEN.get(n, n)
    n = re.sub(r"(?<![\w'])getD(?=-)|(?<=-)getD(?![\w'])", "get_or", n)
    if not re.match(r"^[A-Z][A-Za-z0-9]*$", n) and not re.match(r"^[A-Z]", n):
        n = re.sub(r"(?<=[a-z0-9])([A-Z])(?=[a-z0-9]|$|-|_|')", lambda m: "_" + m[1].lower(), n)
    return re.sub(r"(?<=[\w'₀-₉₊₋])-(?=[\w'₀-₉₊₋])", "_", n)


def read(p):
    with open(p, encoding="utf-8") as f:
        return f.read()


def main(root):
    os.chdir(root)
    crates = {d for d in os.listdir("crates") if os.path.isdir(os.path.join("crates", d, "src"))}
    antt = sorted(f for k in ("specs", "proofs") for f in glob.glob(f"crates/*/{k}/**/*.antt", recursive=True))
    sources = sorted(glob.glob("crates/*/src/**/*.rt", recursive=True))
    edits = sorted(glob.glob("crates/*/must-fail/*.edit"))
    texts = {f: read(f) for f in antt + sources + edits}

    declared, fields = set(), set()
    for f in antt:
        t = texts[f]
        answers = set(ANSWER.findall(t)) if f.endswith("/Proof.antt") else set()
        for m in DECLARED.finditer(t):
            for n in m[1].split():
                if n not in WORDS and n not in answers:
                    declared.add(n)
                    if m[0].startswith(" "):
                        fields.add(n)
        declared |= set(RULESET.findall(t))
    turns = {n: new_name(n) for n in declared}
    turns = {a: b for a, b in turns.items() if a != b}

    said = []
    # Two names of one spelling afterwards: both stay where some file has both.
    back = collections.defaultdict(set)
    for a, b in turns.items():
        back[b].add(a)
    words, bare = {}, {}
    for f, x in texts.items():
        found = [(m[0], x[m.start() - 1 : m.start()] == ".") for m in TOKEN.finditer(x) if not m[0].startswith(("--", "//", '"'))]
        words[f], bare[f] = {w for w, _ in found}, {w for w, dotted in found if not dotted}

    def foreign(t):
        out = set()
        for m in USE.finditer(t):
            path = m[1].split(".")
            own = len(path) > 1 and path[0] == "Rattle" and path[1] in crates
            if not own and m[2]:
                for n in m[2].split(","):
                    out.add(n.split(" as ")[-1].strip())
        return out

    strange = {f: foreign(t) for f, t in texts.items()}
    # A lemma that would have its function's name gets `_lem`.
    for b, olds in back.items():
        if len(olds) > 1:
            for a in olds:
                if "-" in a:
                    turns[a] = b + "_lem"
        elif b in declared and "-" in next(iter(olds)):
            turns[next(iter(olds))] = b + "_lem"
    back = collections.defaultdict(set)
    for a, b in turns.items():
        back[b].add(a)
    stay = set()
    for f in antt + sources:
        here = {w for w in words[f] if w in turns and w not in strange[f]}
        for a in here:
            b = turns[a]
            others = (back[b] & here) - {a}
            # A clause names no function and, of the constants, only those that are imported for it.
            code = f.endswith(".rt") and not re.search(r"(?<![\w.])" + re.escape(b) + r"(?![\w(-])(?!: )", re.sub(r"(?m)^use .*$|^(?:pub )?const .*$|//.*", "", texts[f]))
            if a in bare[f] and (others or b in bare[f]) and not code:
                said.append(f"{f}: {a} would meet {b}" + (f" of {sorted(others)}" if others else ""))
                stay.add(a)
    # A name that is a constant's of the code too, where a clause cites both: by its module there.
    qualified = {("crates/codebook/src/lib.rt", "FCB-ALT-A")}
    stay -= {n for _, n in qualified}
    for a in sorted(stay):
        turns.pop(a)

    def turn(text, path):
        kept = set(strange.get(path, ()))
        if path.endswith("/Proof.antt"):
            kept |= set(ANSWER.findall(text))
        hand = path.endswith("/Proof.antt")

        def one(m):
            w = m[0]
            if w.startswith("--") or w.startswith("//"):
                return SPAN.sub(lambda s: WORD.sub(lambda v: turns.get(v[0], v[0]), s[0]), w)
            if w.startswith('"') or w in kept or w not in turns:
                return w
            before = text[: m.start()][-40:]
            if before.endswith("tie."):
                return w
            if hand and before.endswith(".") and w not in fields and not re.search(r"(?<![\w.'])[A-Z]\w*\.$", before):
                return w
            return turns[w]

        return TOKEN.sub(one, text)

    changed = 0
    for f in antt + sources + edits:
        text = texts[f]
        for path, n in qualified:
            if f == path:
                use = next(m for m in USE.finditer(text) if m[2] and n in re.split(", *", m[2]))
                rest = ", ".join(it for it in re.split(", *", use[2]) if it != n)
                last = use[1].split(".")[-1]
                line = f"ghost use {use[1]}.{{{rest}}};\nghost use {use[1]} as {last};"
                text = text[: use.start()] + line + text[use.end() :]
                at = use.start() + len(line)
                text = text[:at] + re.sub(r"(?<![\w.-])" + re.escape(n) + r"(?![\w-])", f"{last}.{n}", text[at:])
        t = turn(text, f)
        if t != texts[f]:
            changed += 1
            with open(f, "w", encoding="utf-8") as out:
                out.write(t)
    print("\n".join(said))
    print(f"respell: {len(turns)} names turned in {changed} files; {len(stay)} stay")
    return turns


if __name__ == "__main__":
    where = [a for a in sys.argv[1:] if not a.startswith("--")]
    got = main(where[0] if where else os.path.join(os.path.dirname(os.path.abspath(__file__)), ".."))
    if "--list" in sys.argv:
        for a in sorted(got):
            print(a, got[a])
