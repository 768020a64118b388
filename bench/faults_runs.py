"""What the parts of bench/faults.sh share: a run, the files of a store, counts of what was tried, and tables."""
import collections
import os
import signal
import subprocess
import sys
import tempfile
import threading

# the status, None where it took too long, and the bytes that were put on out and err
Ran = collections.namedtuple("Ran", "status out err")


def run(words, folder, given=os.devnull, longest=60, **how):
    """Runs a program in a folder, with a file as its input."""
    with open(given, "rb") as source:
        ran = subprocess.Popen(words, cwd=folder, stdin=source, stdout=subprocess.PIPE, stderr=subprocess.PIPE,
                               start_new_session=True, **how)
        try:
            out, err = ran.communicate(timeout=longest)
        except subprocess.TimeoutExpired:
            os.killpg(ran.pid, signal.SIGKILL)
            return Ran(None, *ran.communicate())
    return Ran(ran.returncode, out, err)


def files_in(folder):
    """The files of a store by their names, without the lock and the journals. One that isn't there is an empty one."""
    store, found = f"{folder}/.kdb", {}
    for name in os.listdir(store) if os.path.isdir(store) else ():
        with open(f"{store}/{name}", "rb") as file:
            found[name] = file.read()
    return {name: held for name, held in found.items() if held and name not in ("journal", "journal2")}


def put_files(folder, files):
    """Makes a store of these files, or no folder where there are none."""
    if files:
        os.mkdir(f"{folder}/.kdb")
        for name, held in {**files, ".lock": b""}.items():
            with open(f"{folder}/.kdb/{name}", "wb") as file:
                file.write(held)
        os.chmod(f"{folder}/.kdb/.lock", 0o666)


class Trials:
    """A folder to work in, the program, and what didn't hold."""

    def __init__(self, kdb, work):
        self.kdb, self.work, self.tried, self.wrong, self.lock = kdb, work, 0, 0, threading.Lock()

    def complain(self, *words):
        """What must hold doesn't."""
        with self.lock:
            self.wrong += 1
            print("MUST NOT BE:", *words, file=sys.stderr, flush=True)

    def count(self):
        """One more run was tried."""
        with self.lock:
            self.tried += 1

    def folder(self):
        return tempfile.TemporaryDirectory(dir=self.work)

    def file(self, held):
        made, path = tempfile.mkstemp(dir=self.work)
        with os.fdopen(made, "wb") as file:
            file.write(held)
        return path

    def next_opening(self, folder, at):
        """Opens the store once more, as the next run does."""
        ran = run([self.kdb, "mounts"], folder)
        if ran.status or ran.err:
            self.complain(at, "the next run ends with", ran.status, ran.err)

    def end(self):
        print(f"{self.tried} runs, {self.wrong} times something didn't hold", file=sys.stderr)
        sys.exit(1 if self.wrong or not self.tried else 0)


def cell(outcomes):
    """How many runs left which files, and how many told a failure, of pairs of a word for the files and a status."""
    counts = collections.Counter(word for word, _ in outcomes)
    told = sum(status == 74 for _, status in outcomes)
    words = [f"{counts[it]} {it}" for it in ("old", "amid", "new", "same") if counts[it]]
    return ", ".join(words) + (f"; {told} told" if told else "")


def table(found, heads):
    """Prints what came of each command, by the heads of the columns."""
    print("| command |", " | ".join(heads), "|")
    print("|---" * (len(heads) + 1) + "|")
    for name, of_case in found.items():
        print(f"| `{name}` |", " | ".join(cell(of_case[head]) for head in heads), "|")
    print(flush=True)
