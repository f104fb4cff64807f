#!/usr/bin/env python3
"""Brings the names of definitions and lemmas in crates/ to snake case: run once, right after the kit's port.py, at the top.

A word of specs/ or proofs/ that this repository declares, or that is a local of its files, turns from `sizeRule` or `rule-threshold`
to `size_rule` or `rule_threshold`. A lemma that would then have the name of a definition gets `_lem`. Types keep their capitals, names
of the library and of generated records stay. Functions, parameters, fields and exported names of src/ are not touched: there only the
words of clauses and of `ghost use` turn. Must-fail edits turn alike. Prints each name that got `_lem`, and each that a parameter of a
function would hide.
"""
import collections
import os
import re
import sys

ROOT = os.path.dirname(os.path.dirname(os.path.abspath(__file__)))
WORD = re.compile(r'[^\s(){}.;,@"«»]+')
QUIET = re.compile(r'"(?:[^"\\\n]|\\.)*"|(?<![^\s(){}.;,@"«»])--[^\n]*|\{-.*?-\}', re.S)
USE = re.compile(r"^\s*(?:pub )?use ([^\s;{]+?)(?:\.\{([^}]*)\})?(?: as (\S+))?$", re.M)
GHOST_USE = re.compile(r"ghost use ([^\s;{]+?)(?:\.\{([^}]*)\})?;", re.S)
DECLARED = re.compile(r'(?m)^( *)(?:(?:abbrev|unfoldable|pub|record|data|mutual|open) )*([^\s(){}.;,@"]+)(?: [^:\n=]*)? :(.*)$')
CLAUSE = re.compile(r"\b(?:requires|ensures|ghost)\s*\*?\s*(?:\w+\s*)?:?\s*\{")
CAMEL = re.compile(r"^[a-z][A-Za-z0-9_']*[A-Z]")
CODE_SPAN = re.compile(r"`[^`\n]*`")
# What a generated name stands behind in a proof that walks the code.
GENERATED = re.compile(r"^ *(tie|goal|lts)\.")


def snake(word):
    if word[:1].isupper():
        return word
    return re.sub(r"(?<=[a-z0-9'])[A-Z]", lambda m: "_" + m[0].lower(), word).replace("-", "_")


def is_kebab(word):
    return "-" in word[1:] and not word.startswith("-") and not word.startswith("◌") and not word[:1].isupper()


def turns(word):
    return is_kebab(word) or bool(CAMEL.match(word))


def files(suffixes):
    for folder, dirs, names in os.walk(os.path.join(ROOT, "crates")):
        dirs[:] = sorted(d for d in dirs if d != "out")
        for name in sorted(names):
            if name.endswith(suffixes):
                yield os.path.join(folder, name)


def read(path):
    with open(path, encoding="utf-8") as it:
        return it.read()


def is_walk(path):
    return "/proofs/" in path and path.endswith("Proof.antt")


OWN = set(os.listdir(os.path.join(ROOT, "crates")))


def imports(text, form=USE):
    """The words that a text imports, each with whether a crate of this repository has it."""
    found = {}
    for m in form.finditer(text):
        path = m[1].split(".")
        own = path[0] == "Rattle" and len(path) > 1 and path[1] in OWN
        for item in (m[2] or "").split(","):
            item = item.strip()
            if item:
                first, _, alias = item.partition(" as ")
                found[first] = own
                if alias:
                    found[alias] = True
    return found


def table():
    """The words that turn, with what they turn to, and the words of the library."""
    library, declared, used = set(), set(), set()
    for path in files(".antt"):
        text = read(path)
        code = QUIET.sub(" ", text)
        known = imports(text)
        library |= {w for w, own in known.items() if not own}
        if is_walk(path):
            for m in DECLARED.finditer(code):
                if not GENERATED.match(m[3]) and not m[2].endswith("-spec") and m[1] == "":
                    declared.add(m[2])
            used |= {w for w, own in known.items() if own}
            continue
        declared |= {m[2] for m in DECLARED.finditer(code)}
        used |= {m[0] for m in WORD.finditer(code)}
    for path in files(".rt"):
        used |= set(imports(read(path), GHOST_USE))
    used |= declared
    words = {w for w in used if turns(w) and w not in library}
    definitions = {snake(w) for w in words if CAMEL.match(w) and not is_kebab(w)}
    plain = {w for w in declared if not turns(w)}
    new = {}
    for w in sorted(words):
        name = snake(w)
        if is_kebab(w) and (name in definitions or name in plain or name in library):
            name += "_lem"
        new[w] = name
    # lemmas that an earlier script turned already
    for name in sorted(plain & definitions):
        new[name] = name + "_lem"
    # a local lemma beside a definition that is imported under its bare name
    new["entry-at"] = "entry_at_lem"
    return new, library, declared


def turn_code(code, new, own_words, library_words, walk):
    def one(m):
        w = m[0]
        if w not in new:
            return w
        before = code[: m.start()]
        dotted = before.endswith(".")
        if w in library_words and not dotted:
            return w
        if not turns(w):
            # a lemma in snake case: not a module behind a path, nor a name that the walk generates
            if dotted or (walk and w not in own_words):
                return w
            return new[w]
        if is_kebab(w) and (dotted or (walk and w not in own_words)):
            return w
        return new[w]

    return WORD.sub(one, code)


def turn_antt(text, new, path):
    known = imports(text)
    walk = is_walk(path)
    code = QUIET.sub(" ", text)
    own_words = {w for w, own in known.items() if own}
    library_words = {w for w, own in known.items() if not own}
    if walk:
        own_words |= {m[2] for m in DECLARED.finditer(code) if not GENERATED.match(m[3]) and not m[2].endswith("-spec") and m[1] == ""}
    fields = {m[2] for m in DECLARED.finditer(code) if m[1]}
    out, at = [], 0
    for m in QUIET.finditer(text):
        out.append(turn_code_fields(text[at : m.start()], new, own_words, library_words, walk))
        out.append(turn_comment(m[0], new) if m[0].startswith(("--", "{-")) else m[0])
        at = m.end()
    out.append(turn_code_fields(text[at:], new, own_words, library_words, walk))
    return "".join(out)


FIELDS = set()


def turn_code_fields(code, new, own_words, library_words, walk):
    """Fields with a dash stand behind a dot: they turn where a record of this repository declares them, but in no walk."""
    code = turn_code(code, new, own_words, library_words, walk)
    if walk:
        return code
    return re.sub(r"(?<=[\w')\]])\.([a-z][\w'-]*)", lambda m: "." + new[m[1]] if m[1] in FIELDS and m[1] in new and is_kebab(m[1]) else m[0], code)


def turn_comment(text, new):
    text = WORD.sub(lambda m: new[m[0]] if m[0] in new and CAMEL.match(m[0]) else m[0], text)
    return CODE_SPAN.sub(lambda s: WORD.sub(lambda m: "`" * m[0].startswith("`") + new.get(m[0].strip("`"), m[0].strip("`")) + "`" * m[0].endswith("`") if turns(m[0].strip("`")) else m[0], s[0]), text)


def turn_rt(text, new):
    """Only clauses and `ghost use` have words with a capital inside or a dash; a comment's words with a capital turn too."""
    known = imports(text, GHOST_USE)

    def word(m):
        w = m[0]
        if CAMEL.match(w) and w in new and not w[:1].isupper():
            return new[w]
        if is_kebab(w) and w in known and known[w] and w in new:
            return new[w]
        return w

    return WORD.sub(word, text)


def turn_edit(text, new):
    """The two texts of an edit: words with a capital inside or a dash."""
    out = []
    for line in text.split("\n"):
        if line.startswith(("old:", "new:")):
            line = WORD.sub(lambda m: new[m[0]] if m[0] in new and turns(m[0]) else m[0], line)
        elif line.startswith("#"):
            line = WORD.sub(lambda m: new[m[0]] if m[0] in new and CAMEL.match(m[0]) else m[0], line)
        out.append(line)
    return "\n".join(out)


SIGNATURE = re.compile(r"\bfn (\w+)(?:<[^()]*>)?\(([^()]*)\)(.*?)\n\{", re.S)


def hidden(text, new):
    """Parameters that have the new name of a word of the function's clauses."""
    made = {b for a, b in new.items() if turns(a)}
    found = []
    for m in SIGNATURE.finditer(text):
        names = set(re.findall(r"(\w+):", m[2]))
        words = {w[0] for w in WORD.finditer(m[3])}
        found += [(m[1], n) for n in names & made & words]
    return found


def main():
    new, library, declared = table()
    for path in files(".antt"):
        if is_walk(path):
            continue
        code = QUIET.sub(" ", read(path))
        FIELDS.update(m[2] for m in DECLARED.finditer(code) if m[1])
    for old, name in sorted(new.items()):
        if name.endswith("_lem"):
            print(f"{old} is {name}")
    for path in files((".antt", ".rt", ".edit")):
        text = read(path)
        if path.endswith(".antt"):
            turned = turn_antt(text, new, path)
        elif path.endswith(".rt"):
            turned = turn_rt(text, new)
            for function, name in hidden(turned, new):
                print(f"look: {os.path.relpath(path, ROOT)}: the parameter {name} of {function} hides a word of its clauses")
        else:
            turned = turn_edit(text, new)
        if turned != text:
            with open(path, "w", encoding="utf-8") as it:
                it.write(turned)
    if "--table" in sys.argv:
        for old, name in sorted(new.items()):
            print(f"{old}\t{name}")


main()
