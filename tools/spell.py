#!/usr/bin/env python3
"""Brings the names of this repository's own definitions and lemmas to the spelling of the library.

usage: python3 tools/spell.py       at the top of the repository, once, after port.py and before any edit by hand

Words are in snake case: `sentBytes` becomes `sent_bytes`, and `error-leaves-none` becomes
`error_leaves_none`; a lemma that would have a definition's name gets `_lem`. Types and modules keep their camel case. Names that come from the library, that
Rattle makes, and that the Rust source gives keep theirs. It rewrites specs/, proofs/, the clauses in
src/, the must-fail edits, and the names in backticks or in a list of laws in the documents. It prints
each two names that would fall together in one file, and then writes nothing.
"""

import os
import re
import sys

TOKEN = re.compile(r"[^\s(){}\[\];,.:|\"?`◌]+")
SIGNATURE = re.compile(r"^\s*(?:(?:pub|abbrev|unfoldable|record|data|ruleset)\s+)*([^\s(){}\[\];,.:|]+)\s*:(?!:)")
RULESET = re.compile(r"^\s*(?:pub\s+)?ruleset\s+(\S+)\s*=")
USE = re.compile(r"(?:ghost )?use\s+([^\s{;]+?)(?:\.\{([^}]*)\})?(?:\s+as\s+(\S+?))?;?\s*$")
# Words of the library that lemmas of ours would have.
LIBRARY = {"bits_of", "by_order", "bit_and", "bit_or"}
# Names of the library that stand behind a dot, with no import of their own.
KEPT = {"not-nil"}
# Fields of records that have the name of a definition elsewhere: a field is no lemma.
FIELDS = {"password-length", "lent-right"}


def snake(name):
    """A name in snake case."""
    name = name.replace("getD", "get_or")
    name = re.sub(r"(?<=[a-z0-9])([A-Z])", r"_\1", name).lower()
    return name.replace("-", "_")


def wants(name):
    """Whether a name is a word of the older spelling: camel case from a small letter on, or with a dash."""
    if name in KEPT or not re.fullmatch(r"[a-z][\w₀-₉'-]*", name):
        return False
    return "-" in name.strip("-") or bool(re.search(r"[A-Z]", name))


def files(ending):
    for folder, dirs, names in os.walk("crates"):
        dirs[:] = sorted(d for d in dirs if d not in ("out", "data"))
        for n in sorted(names):
            if n.endswith(ending):
                yield os.path.join(folder, n)


def crate_of(path):
    return path.split(os.sep)[1]


def in_function(path):
    """Whether a file stands in the proof of one function, where names that Rattle makes are at home."""
    parts = path.split(os.sep)
    return len(parts) > 4 and parts[2] == "proofs"


def own_module(module, crates):
    """Whether an import names a file of this repository, and not what Rattle makes beside it."""
    parts = module.split(".")
    if parts[0] != "Rattle" or len(parts) < 4 or parts[1] not in crates:
        return False
    return os.path.exists(os.path.join("crates", parts[1], *parts[2:]) + ".antt")


def imports(text, crates):
    """The names that a file takes from this repository, and those that it takes from elsewhere."""
    own, foreign = set(), set()
    for line in text.splitlines():
        m = USE.match(line.strip())
        if not m:
            continue
        taken = set(re.findall(r"[^\s,]+", m.group(2) or "")) - {"as"}
        (own if own_module(m.group(1), crates) else foreign).update(taken)
    return own, foreign


def declared(text):
    names = set()
    for line in text.splitlines():
        if line.strip().startswith("--"):
            continue
        m = SIGNATURE.match(line) or RULESET.match(line)
        if m:
            names.add(m.group(1))
    return names


def without_comments(text):
    return "\n".join(l.split("-- ", 1)[0] for l in text.splitlines())


class Names:
    def __init__(self):
        self.crates = sorted(os.listdir("crates"))
        self.texts = {p: open(p, encoding="utf-8").read() for p in files(".antt")}
        self.all = set()
        for p, t in self.texts.items():
            self.all |= {n for n in declared(t) if wants(n) and not made(n)}
        self.words = LIBRARY | {snake(n) for n in self.all if "-" not in n}
        source = "\n".join(open(p, encoding="utf-8").read() for p in files(".rt"))
        self.functions = set(re.findall(r"\bfn\s+(\w+)", source))

    def new(self, name, path=""):
        """The new name; a lemma's, where a definition has it already, with `_lem`."""
        word = snake(name)
        call = in_function(path) and word in self.functions
        return word + "_lem" if "-" in name and name not in FIELDS and word in self.words and not call else word

    def of_file(self, path):
        """What is renamed in an .antt file: old names to new ones."""
        text = self.texts[path]
        own, foreign = imports(text, self.crates)
        here = declared(text)
        code = {t for t in TOKEN.findall(without_comments(text)) if wants(t)}
        if in_function(path):
            renamed = {n for n in code | here if n in own or (n in here and not made(n)) or ("-" not in n and n not in foreign)}
            renamed |= {n for n in code if n.replace("-", "_") in self.functions}
        else:
            renamed = (code | here) - foreign
        return {n: self.new(n, path) for n in renamed if wants(n)}


def made(name):
    """Whether Rattle asks for a name: a goal's, an invariant's or a measure's."""
    return re.match(r"(returns|loop|invariant|decreases|need)(-|$)", name) is not None


def fall_together(path, renamed, text):
    """Two names of a file that would have one spelling: each is told."""
    tokens = {m.group(0) for m in re.finditer(r"(?<![.\w'-])" + TOKEN.pattern, without_comments(text))}
    new, told = {}, []
    for n in sorted(renamed):
        s = renamed[n]
        if s in tokens - set(renamed) or s in new:
            told.append(f"{path}: {n} and {new.get(s, s)} fall together as {s}")
        new[s] = n
    return told


def turn(text, renamed):
    return TOKEN.sub(lambda m: renamed.get(m.group(0), m.group(0)), text)


def hidden(path, text, renamed):
    """A parameter or a field of a .rt file that would hide a word of its clauses: each is told."""
    plain = set(re.findall(r"\b([a-z]\w*): ", text))
    taken = {renamed[n]: n for n in TOKEN.findall(text) if n in renamed}
    return [f"{path}: {taken[n]} would be hidden by {n}" for n in sorted(plain & set(taken))]


def turn_source(text, renamed):
    """Clauses and imports of a .rt file or an edit: the words of the documents' rules, in camel case."""
    out = []
    for part in re.split(r'("(?:[^"\\]|\\.)*")', text):
        out.append(part if part.startswith('"') else turn(part, renamed))
    return "".join(out)


def turn_known(text, known):
    """Words of the older spelling that a definition or lemma has in the new one."""
    return TOKEN.sub(lambda m: snake(m.group(0)) if wants(m.group(0)) and snake(m.group(0)) in known else m.group(0), text)


def turn_document(text, renamed, known):
    """The names in backticks, and behind the words law and laws."""
    text = re.sub(r"`[^`\n]+`", lambda m: turn(m.group(0), renamed), text)
    text = re.sub(r"`[^`\n]+`", lambda m: turn_known(m.group(0), known), text)
    return re.sub(r"\b(laws? )([a-z0-9_-]+(?:, [a-z0-9_-]+)*)", lambda m: m.group(1) + turn_known(turn(m.group(2), renamed), known), text)


def main():
    if not os.path.isdir("crates"):
        sys.exit("spell: run it at the top of the repository")
    names = Names()
    told, written = [], {}
    for p, text in names.texts.items():
        renamed = names.of_file(p)
        told += [] if in_function(p) else fall_together(p, renamed, text)
        written[p] = turn(text, renamed)
    known = set()
    for p, text in written.items():
        known |= declared(text)
    for p in written:
        written[p] = re.sub(r"(?m)--.*$", lambda m: turn_known(m.group(0), known), written[p])
    everywhere = {n: names.new(n) for n in names.all if n not in names.functions}
    for p in list(files(".rt")) + list(files(".edit")):
        told += hidden(p, open(p, encoding="utf-8").read(), everywhere)
        text = turn_source(open(p, encoding="utf-8").read(), everywhere)
        written[p] = re.sub(r"(?m)(?://|must-fail:).*$", lambda m: turn_known(m.group(0), known), text)
    for folder, dirs, found in os.walk("."):
        dirs[:] = [d for d in dirs if d not in (".git", "crates", "target", "out")]
        for n in found:
            if n.endswith(".md") and "wip" not in folder:
                p = os.path.join(folder, n)
                written[p] = turn_document(open(p, encoding="utf-8").read(), everywhere, known)
    for line in told:
        print(line)
    if told and "--anyway" not in sys.argv:
        sys.exit(f"spell: {len(told)} names fall together; nothing was written")
    changed = 0
    for p, text in written.items():
        if open(p, encoding="utf-8").read() != text:
            changed += 1
            with open(p, "w", encoding="utf-8") as f:
                f.write(text)
    print(f"spell: {changed} files rewritten")


if __name__ == "__main__":
    main()
