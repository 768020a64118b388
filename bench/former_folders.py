#!/usr/bin/env python3
"""former_folders.py PROGRAM FOLDER: opens folders of a former program with PROGRAM, each in FOLDER.

They are data, bench/former_folders.txt: the executable of the last program without the file journal2 made them. Each is
opened by a get, and has the wanted values then; its journal, if it was long enough for an entry, is cut to one closed
gate; and a set behind that is stored, and changes nothing else. The last line says how many were right. bench/edge.sh
calls this.
"""
import os
import shutil
import subprocess
import sys

DATA = f"{os.path.dirname(os.path.abspath(__file__))}/former_folders.txt"
HEAD_SIZE = 5  # bytes of an entry before its body


def folders():
    """Of each folder its name, the wanted value of each key, or none, and the bytes of its files."""
    found = []
    with open(DATA, encoding="utf-8") as lines:
        for line in lines:
            word, *rest = line.split() or [""]
            if word == "folder":
                wanted = [it.partition("=") for it in rest[1:]]
                found.append((rest[0], {key: text if sign else None for key, sign, text in wanted}, {}))
            elif word in ("file", "more"):
                files = found[-1][2]
                files[rest[0]] = files.get(rest[0], b"") + bytes.fromhex("".join(rest[1:]))
    return found


def got(program, folder, key):
    """The value of a key there, or none."""
    ran = subprocess.run([program, "get", key], cwd=folder, capture_output=True, text=True, check=False)
    if ran.returncode == 11:
        return None
    return ran.stdout.removesuffix("\n") if ran.returncode == 0 else f"status {ran.returncode}: {ran.stderr}"


def fault_of(program, folder, wanted, files):
    """What is wrong of a folder that was opened, if anything is."""
    journal = f"{folder}/.kdb/journal"
    for key, value in wanted.items():
        there = got(program, folder, key)
        if there != value:
            return f"{key} is {there}"
    was = files.get("journal")
    if was is not None:
        with open(journal, "rb") as file:
            now = file.read()
        if now != (b"\0" if len(was) >= HEAD_SIZE else was):
            return f"its journal is {now.hex()}"
    subprocess.run([program, "set", "user:/more", "text"], cwd=folder, capture_output=True, check=False)
    for key, value in {**wanted, "user:/more": "text"}.items():
        there = got(program, folder, key)
        if there != value:
            return f"behind a set {key} is {there}"
    return None


def main():
    program, above = os.path.abspath(sys.argv[1]), sys.argv[2]
    found, right = folders(), 0
    for name, wanted, files in found:
        folder = f"{above}/{name}"
        os.makedirs(f"{folder}/.kdb")
        for file, data in files.items():
            with open(f"{folder}/.kdb/{file}", "wb") as to:
                to.write(data)
        fault = fault_of(program, folder, wanted, files)
        if fault:
            print(f"{name}: {fault}")
        right += not fault
        shutil.rmtree(folder)
    print(f"{right} of {len(found)}")


main()
