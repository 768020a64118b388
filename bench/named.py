#!/usr/bin/env python3
"""named.py: looks whether what the documents name is there. It wants nothing but the repository.

- each link of a page leads to a file, and where it names a heading, to one of that page;
- each file that "Where to change what" names (docs/DESIGN.md), and each limit's (docs/LIMITS.md), is there;
- each call, clause and definition that docs/PROMISES.md names is a word of some crate, and each wrong body an edit;
- each crate has a README that leads to its promises, or is among those that promise nothing;
- no line but a row of a table has more than 120 characters.
"""
import glob
import os
import re
import sys

TOP = os.path.dirname(os.path.dirname(os.path.abspath(__file__)))
CODE = re.compile(r"`([^`]+)`")


def text_of(path):
    with open(f"{TOP}/{path}", encoding="utf-8") as file:
        return file.read()


def pages():
    found = [f"{TOP}/README.md", *glob.glob(f"{TOP}/docs/*.md"), *glob.glob(f"{TOP}/crates/*/README.md")]
    return sorted(os.path.relpath(it, TOP) for it in found)


def anchors(page):
    """The headings of a page as links name them."""
    heads = re.findall(r"^#+ (.*)$", text_of(page), re.M)
    return {re.sub(r"[^\w -]", "", it.lower()).replace(" ", "-") for it in heads}


def links(page):
    for link in re.findall(r"\]\(([^)\s]+)\)", text_of(page)):
        if "://" in link:
            continue
        path, _, heading = link.partition("#")
        to = os.path.normpath(os.path.join(os.path.dirname(page), path)) if path else page
        if not os.path.exists(f"{TOP}/{to}"):
            yield f"{page}: {link} leads to no file"
        elif heading and heading not in anchors(to):
            yield f"{page}: {link} leads to no heading"


def section(page, head):
    text = text_of(page)
    begun = text.index(f"\n## {head}\n")
    return text[begun : (text + "\n## ").index("\n## ", begun + 1)]


def items(text):
    return [" ".join(it.split()) for it in re.findall(r"^- (.*(?:\n  .*)*)", text, re.M)]


def is_there(path):
    """A file of the crates, with or without its ending, a folder of them, a file of cases, or one of the repository."""
    ends = ("", ".rt", ".antt")
    return (any(os.path.exists(f"{TOP}/crates/{path}{end}") for end in ends)
            or os.path.exists(f"{TOP}/crates/kdb_cases/data/{path}") or os.path.exists(f"{TOP}/{path}"))


def places():
    """Each file of "Where to change what": a word alone stands for a file of the folder before it."""
    for item in items(section("docs/DESIGN.md", "Where to change what")):
        rule, _, rest = item.partition("**: ")
        for part in rest.split("; "):
            folder = ""
            for word in CODE.findall(re.sub(r"\([^)]*\)", "", part)):
                if "/" in word:
                    folder = word if re.fullmatch(r"\w+/(src|specs|proofs)", word) else os.path.dirname(word)
                if not is_there(word) and not is_there(f"{folder}/{word}"):
                    yield f"docs/DESIGN.md, {rule[2:]}: {word} is not there"


def limits():
    for item in items(text_of("docs/LIMITS.md")):
        name, _, rest = item.partition(".**")
        files = [it for it in CODE.findall(rest) if "/" in it]
        for word in CODE.findall(rest.partition("; met in")[0]):
            if "/" in word and not is_there(word):
                yield f"docs/LIMITS.md, {name[2:]}: {word} is not there"
            elif "/" not in word and not any(re.search(rf"\b{word}\b", text_of(f"crates/{it}")) for it in files):
                yield f"docs/LIMITS.md, {name[2:]}: {word} stands in none of its files"


def words():
    """All words of the sources, and all names of files."""
    known = set()
    for folder, inner, files in os.walk(f"{TOP}/crates"):
        inner[:] = [it for it in inner if it != "out"]
        known |= {*files, *inner}
        for name in files:
            if name.endswith((".rt", ".antt")):
                known |= set(re.findall(r"\w+", text_of(os.path.relpath(f"{folder}/{name}", TOP))))
    return known


def promises():
    known = words()
    for item in items(text_of("docs/PROMISES.md")):
        for name in CODE.findall(item.partition(" By ")[2]):
            if re.fullmatch(r"[A-Za-z_][\w:.]*", name) and not name.endswith(":") and name not in known:
                for word in re.split(r"::|\.", name):
                    if word not in known:
                        yield f"docs/PROMISES.md: {name} is nowhere"


def wrong_bodies():
    for item in items(section("docs/PROMISES.md", "Wrong bodies")):
        for name in CODE.findall(item):
            crate, _, edit = name.partition("/")
            if edit and not os.path.exists(f"{TOP}/crates/{crate}/must-fail/{edit}.edit"):
                yield f"docs/PROMISES.md: there is no wrong body {name}"


def readmes():
    told = text_of("docs/PROMISES.md").partition("\n## ")[0]
    silent = told[told.index("\nPrograms and tests promise nothing") :]
    for crate in sorted(os.listdir(f"{TOP}/crates")):
        if not os.path.exists(f"{TOP}/crates/{crate}/README.md"):
            yield f"crates/{crate} has no README"
        elif f"`{crate}`" not in told:
            yield f"docs/PROMISES.md lacks {crate} at its head"
        elif "PROMISES.md#" not in text_of(f"crates/{crate}/README.md") and f"`{crate}`" not in silent:
            yield f"crates/{crate}/README.md leads to no promises"


def lengths():
    for page in pages():
        for number, line in enumerate(text_of(page).split("\n"), 1):
            if len(line) > 120 and not line.startswith("|"):
                yield f"{page}, line {number} has {len(line)} characters"


def main():
    bad = [it for page in pages() for it in links(page)]
    bad += [*places(), *limits(), *promises(), *wrong_bodies(), *readmes(), *lengths()]
    for it in bad:
        print(it)
    print("all that is named is there" if not bad else f"{len(bad)} to be mended")
    sys.exit(1 if bad else 0)


main()
