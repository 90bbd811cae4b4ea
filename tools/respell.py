#!/usr/bin/env python3
"""Brings the repository's own definitions, lemmas and variables to snake case: a-word becomes a_word.

Run once at the top of the repository, after the kit's own port.py. Names of the kit's library and names that the check
makes (goals and the steps that they cite) keep their dashes; comments, strings and code stay as they are.
"""

import os
import re

NAME = r"[^\W\d][\w']*(?:-[\w']+)+"
WORD = r"(?<![\w'\-])" + NAME

# names that two things would share after the dash is gone, and what the one that gives way is called
APART = {
    "gate-count": "made_gates",
    "variable-count": "made_variables",
    "pair-count": "made_pairs",
    "None-of": "NoneOf",
}
# bound by a pattern or an import, with no signature of their own
BOUND = (
    "c-is close-here few-names here-sign infix-here is-a is-count no-left no-title no-until open-here reply-of"
    " sound-of yes-q yes-said"
).split()

SIGNATURE = re.compile(
    r"^([ \t]*)(?:(?:abbrev|pub|private|unfoldable|theorem|data|record|let|opaque)\s+)*(" + NAME + r")\s*:(?!:)\s*(\S*)", re.M
)
PARAMETERS = re.compile(r"[({]((?:[\w'\-]+\s+)+):\s")
RENAMED = re.compile(r"\bas (" + NAME + r")")
IMPORT = re.compile(r"^(?:ghost )?use (Rattle\.[\w.'+]*)\.\{([^}]*)\}", re.M)
ANTT = re.compile(r"(?P<keep>(?:(?<=\s)|^)--(?=\s|$).*$|\"(?:\\.|[^\"\\])*\")|(?P<name>" + WORD + ")", re.M)
RUST = re.compile(r"(?P<keep>//.*$|b?\"(?:\\.|[^\"\\])*\")|(?P<name>" + WORD + ")", re.M)


def texts(endings):
    for folder, below, files in os.walk("crates"):
        below[:] = sorted(d for d in below if d != "out")
        for name in sorted(files):
            if name.endswith(endings):
                path = os.path.join(folder, name)
                with open(path, encoding="utf-8") as f:
                    yield path, f.read()


def own_names():
    """The names that the repository defines, and those of them that stand indented: fields, and definitions of a module."""
    own, fields = set(BOUND), set()
    for path, text in texts((".antt", ".rt")):
        own.update(RENAMED.findall("\n".join(line for line in text.split("\n") if "use " in line)))
        if not path.endswith(".antt"):
            continue
        for m in SIGNATURE.finditer(text):
            if not m.group(3).startswith("goal."):
                own.add(m.group(2))
                if m.group(1):
                    fields.add(m.group(2))
        for m in PARAMETERS.finditer(text):
            own.update(w for w in m.group(1).split() if re.fullmatch(NAME, w))
    return own, fields


def made_names(text):
    """The names of a file that are the library's or the check's."""
    made = {m.group(2) for m in SIGNATURE.finditer(text) if m.group(3).startswith("goal.")}
    for m in IMPORT.finditer(text):
        if re.match(r"Rattle\.(std|core)\b", m.group(1)) or m.group(1).endswith((".Goals", ".Given")):
            made.update(re.findall(WORD, m.group(2)))
    return made


def main():
    own, fields = own_names()
    for path, text in list(texts((".antt", ".rt", ".edit"))):
        made = made_names(text)

        def turned(match):
            name = match.group("name")
            if match.group("keep") is not None or name in made or name not in own:
                return match.group(0)
            start = match.start()
            if start and text[start - 1] == ".":
                owner = re.search(r"([\w'\-]+)\.$", text[:start])
                in_module = owner is not None and owner.group(1)[0].isupper()
                if not in_module and name not in fields:
                    return match.group(0)
            return APART.get(name, name.replace("-", "_"))

        new = (ANTT if path.endswith(".antt") else RUST).sub(turned, text)
        if new != text:
            with open(path, "w", encoding="utf-8") as f:
                f.write(new)


if __name__ == "__main__":
    main()
