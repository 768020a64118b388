#!/usr/bin/env python3
"""documents.py [KDB]: runs every example of the documents on the program, build/kdb where none is named.

A page's examples run one after the other in a new folder. What a block is says the line before it:

    <!-- run -->        commands, each behind `$ `, with what they print on out and err below them and, behind
                        `# status N`, how they end
    <!-- file PATH -->  the block is written to that file
    <!-- is PATH -->    that file has to hold just the block
"""
import glob
import os
import re
import subprocess
import sys
import tempfile

TOP = os.path.dirname(os.path.dirname(os.path.abspath(__file__)))
PAGES = [f"{TOP}/README.md", *sorted(glob.glob(f"{TOP}/docs/*.md"))]
MARK = re.compile(r"\s*<!-- (run|file|is)(?: (\S+))? -->$")


def blocks_of(page):
    """Gives each marked block of a page: the line that it begins at, its kind, the path, and its lines."""
    with open(page, encoding="utf-8") as it:
        lines = it.read().split("\n")
    for at, line in enumerate(lines):
        mark = MARK.match(line)
        if not mark:
            continue
        first = at + 1
        while first < len(lines) and not lines[first].strip():
            first += 1
        margin = len(lines[first]) - len(lines[first].lstrip())
        block = []
        for text in lines[first:]:
            if text.strip() and len(text) - len(text.lstrip()) < margin:
                break
            block.append(text[margin:])
        while block and not block[-1].strip():
            block.pop()
        yield first + 1, mark.group(1), mark.group(2), block


def commands_in(block):
    """Gives each command of a block with its status and the lines that it has to print."""
    begun = None
    for line in block:
        if line.startswith("$ "):
            if begun:
                yield begun
            status = re.search(r"\s# status (\d+)", line)
            begun = (line[2:], int(status.group(1)) if status else 0, [])
        else:
            begun[2].append(line)
    if begun:
        yield begun


def run(kdb, folder, command):
    path = f"{os.path.dirname(kdb)}:{os.environ['PATH']}"
    ran = subprocess.run(["bash", "-c", command], cwd=folder, env={**os.environ, "PATH": path},
                         stdin=subprocess.DEVNULL, stdout=subprocess.PIPE, stderr=subprocess.STDOUT, timeout=60)
    return ran.returncode, ran.stdout.decode()


def try_page(kdb, page):
    tried, bad = 0, []
    with tempfile.TemporaryDirectory() as folder:
        for at, kind, path, block in blocks_of(page):
            text = "".join(f"{line}\n" for line in block)
            if kind == "file":
                os.makedirs(os.path.dirname(f"{folder}/{path}"), exist_ok=True)
                with open(f"{folder}/{path}", "w", encoding="utf-8") as it:
                    it.write(text)
            elif kind == "is":
                tried += 1
                with open(f"{folder}/{path}", encoding="utf-8") as it:
                    held = it.read()
                if held != text:
                    bad.append(f"line {at}: {path} holds\n{held}")
            else:
                for command, status, wanted in commands_in(block):
                    tried += 1
                    ended, told = run(kdb, folder, command)
                    if (ended, told) != (status, "".join(f"{line}\n" for line in wanted)):
                        bad.append(f"line {at}: $ {command}\nends with {ended} and prints\n{told}")
    return tried, bad


def main():
    kdb = os.path.abspath(sys.argv[1] if len(sys.argv) > 1 else f"{TOP}/build/kdb")
    whole = failed = 0
    with tempfile.TemporaryDirectory() as tools:
        # The documents call the program by its name.
        os.symlink(kdb, f"{tools}/kdb")
        for page in PAGES:
            tried, bad = try_page(f"{tools}/kdb", page)
            whole, failed = whole + tried, failed + len(bad)
            for it in bad:
                print(f"{os.path.relpath(page, TOP)}, {it}")
    print(f"{whole - failed} of {whole} examples as the documents say")
    sys.exit(1 if failed or not whole else 0)


main()
