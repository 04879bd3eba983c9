#!/usr/bin/env python3
"""Respells the repository's own definitions, lemmas and fields as today's Rattle spells names.

usage: python3 tools/respell.py        at the top of a checkout in which port.py has just run; once

A declared name in dashes or in camel case becomes snake case, `′` becomes `'`, and the modules `laws` become `Laws`. Only names that a file of specs/ or
proofs/ declares (proofs/F/ aside) are turned, and in a comment or a document only between backquotes. Where a lemma would fall together with a definition
that one file speaks of beside it, the lemma gets `_lem`. Functions of src/, exported names, strings, inputs and outputs keep their names. It prints each
name that it turned, old and new.
"""

import collections
import os
import re
import subprocess
import sys

DECLARED = re.compile(r"^\s*((?:(?:pub|abbrev|unfoldable|private|opaque|data|record|ruleset) )*)([^\s:()\[\]{}=;,.λ→]+(?: [^\s:()\[\]{}=;,.λ→]+)*)(?: [({\[].*)? :(?:\s|$)")
TOKEN = re.compile(r"(?<![\w'′-])[\w'′-]+")
IMPORTED = re.compile(r"^\s*(?:ghost )?use ((?:Rattle\.(?:std|check|io|libc)|mathlib|lib|native|Prim|borrow|denote|prim)\b\S*?)\.?\{([^}]*)\}")


def files(root, endings):
    for folder, dirs, names in os.walk(root):
        dirs[:] = sorted(d for d in dirs if d not in ("out", ".git", "target"))
        for name in sorted(names):
            if name.endswith(endings):
                yield os.path.join(folder, name)


def declared():
    """Each declared name, with the files that declare it; and the names of which each is a field of a record, which stand behind a dot."""
    found, alone = collections.OrderedDict(), set()
    for path in files("crates", (".antt",)):
        if path.endswith("/Proof.antt"):
            continue
        record, begun = None, None
        for line in open(path, encoding="utf-8"):
            indent = len(line) - len(line.lstrip())
            if line.strip() and record is not None and indent <= record:
                record = None
            if re.match(r"\s*(--|use |module |pub mod |mod )", line):
                continue
            match = DECLARED.match(line)
            if match:
                for name in match.group(2).split():
                    found.setdefault(name, []).append(path)
                    if record is None:
                        alone.add(name)
            if re.match(r"\s*(pub )?record\b", line):
                begun = indent
            if begun is not None and re.search(r"\bwhere\s*$", line):
                record, begun = begun, None
    return found, set(found) - alone


def of_the_library():
    """The names that some file imports from Rattle's library."""
    names = set()
    for path in files("crates", (".antt", ".rt")):
        for line in open(path, encoding="utf-8"):
            match = IMPORTED.match(line)
            if match:
                names |= {name.strip() for name in match.group(2).split(",")}
    return names


def snake(name):
    words = []
    for word in re.split(r"[-_]", name.replace("′", "'")):
        if word and not (word[0].isupper() and re.search("[a-z]", word)) and len(word) > 1:
            word = re.sub(r"(?<=[a-z0-9])(?=[A-Z])", "_", word).lower()
        words.append(word)
    return "_".join(words)


def turned(found, fields):
    """old -> new; where only one file turns a name, that file stands before it."""
    library = of_the_library()
    new = {}
    for name in found:
        if re.search(r"[^\w'′-]", name) or not re.search(r"\w", name):
            continue
        if "-" in name or "′" in name or (name[0].islower() and re.search("[a-z0-9][A-Z]", name)):
            if snake(name) != name:
                new[name] = snake(name)
    for name in [name for name in new if name in library]:  # spelled as the library's of that name
        del new[name]
    by_target = collections.defaultdict(list)
    for old, to in new.items():
        if isinstance(old, str):
            by_target[to].append(old)
    uses = {path: set(TOKEN.findall(open(path, encoding="utf-8").read())) for path in files("crates", (".antt",))}
    for to, olds in by_target.items():
        definitions = [old for old in olds if "-" not in old]
        lemmas = [old for old in olds if "-" in old and old not in fields]
        if len(definitions) > 1 or len(lemmas) > 1:
            sys.exit(f"respell: {olds} fall together")
        meets = definitions + ([to] if to in found or to in library else [])
        for lemma in lemmas:
            if meets and any(lemma in words and words & set(meets) for words in uses.values()):
                new[lemma] = to + "_lem"
        if definitions and to in found and to not in fields:
            for path in found[to]:
                if definitions[0] in uses[path]:
                    new[path, to] = to + "_lem"
    return new


def main():
    new = turned(*declared())
    everywhere = {old: to for old, to in new.items() if isinstance(old, str)}
    in_file = {old: to for old, to in new.items() if not isinstance(old, str)}

    def code(text, path):
        return TOKEN.sub(lambda m: in_file.get((path, m.group())) or everywhere.get(m.group(), m.group()), text)

    def quoted(text, path):
        return re.sub(r"`[^`\n]*`", lambda m: code(m.group(), path), text)

    for path in list(files("crates", (".antt", ".rt"))) + list(files("docs", (".md",))) + ["README.md"]:
        text = open(path, encoding="utf-8").read()
        if path.endswith(".md"):
            out = quoted(text, path)
        else:
            mark = "--" if path.endswith(".antt") else "//"
            lines = []
            for line in text.split("\n"):
                at = re.search(r"(^|(?<=\s))" + mark, line)
                head, tail = (line[: at.start()], line[at.start():]) if at else (line, "")
                if path.endswith(".rt"):  # strings keep their text
                    head = "".join(part if k % 2 else code(part, path) for k, part in enumerate(re.split(r'("(?:[^"\\]|\\.)*")', head)))
                elif not IMPORTED.match(head):
                    head = code(head, path)
                lines.append(head + quoted(tail, path))
            out = "\n".join(lines)
        out = re.sub(r"(\.specs\.)laws(?![\w'-])", r"\1Laws", out)
        out = re.sub(r"^(\s*(?:pub )?mod )laws$", r"\1Laws", out, flags=re.M)
        out = out.replace("specs/laws", "specs/Laws")
        if out != text:
            open(path, "w", encoding="utf-8").write(out)
    for crate in sorted(os.listdir("crates")):
        for old, to in (("laws", "Laws"), ("laws.antt", "Laws.antt")):
            if os.path.exists(f"crates/{crate}/specs/{old}"):
                subprocess.run(["git", "mv", f"crates/{crate}/specs/{old}", f"crates/{crate}/specs/{to}"], check=True)
    for old, to in sorted(everywhere.items()):
        print(f"{old}\t{to}")
    for (path, old), to in sorted(in_file.items()):
        print(f"{old}\t{to}\tin {path}")


if __name__ == "__main__":
    main()
