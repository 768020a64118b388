#!/usr/bin/env bash
# Refuses each growth of the real program's memory in turn, alone and with all behind it: of the first set of all, of
# each command on a store with every format, and of batches with a conflict, with merged sets and with every step
# (bench/growths.py says what must hold). Prints tables of what came of them, and ends with 1 where something doesn't
# hold. A growth is a call by which the program asks the C library for memory, `malloc` or `realloc`: a library that is
# loaded before that one counts them and refuses. Those of the C library itself, as for a thread, are not refused. Words
# stand for the runs, as `set` or `merged`. Wants build/kdb (first-use.sh makes it), cc, python3 and the GNU C library.
# It takes some minutes. Not part of the gate.
set -eu
cd "$(dirname "$0")/.."
. bench/words.sh
put growths "$@"
wants cc python3
program
# What lies in memory goes with the script, too: no sync is waited for there.
memory=$(mktemp -d -p /dev/shm)
trap 'rm -rf "$work" "$memory"' EXIT
cat >"$work/refuse.c" <<'C'
#define _GNU_SOURCE
#include <errno.h>
#include <fcntl.h>
#include <link.h>
#include <stdlib.h>
#include <sys/mman.h>
#include <unistd.h>

void *__libc_malloc(size_t size);
void *__libc_realloc(void *block, size_t size);

/* How many growths the program asked for, and how many of them were refused, in a file that outlives the run. */
static struct { _Atomic long asked, refused; } *note;
static long first, last;
static ElfW(Addr) begin, end;

/* The place of the program's own code: it is the first object of all. */
static int find_program(struct dl_phdr_info *object, size_t size, void *unused) {
  for (int i = 0; i < object->dlpi_phnum; i++) {
    const ElfW(Phdr) *part = &object->dlpi_phdr[i];
    if (part->p_type == PT_LOAD && part->p_flags & PF_X) {
      begin = object->dlpi_addr + part->p_vaddr;
      end = begin + part->p_memsz;
    }
  }
  return 1;
}

__attribute__((constructor)) static void start(void) {
  int file = open(getenv("REFUSE_NOTE"), O_RDWR | O_CLOEXEC);
  void *place = mmap(NULL, sizeof *note, PROT_READ | PROT_WRITE, MAP_SHARED, file, 0);
  if (place == MAP_FAILED) abort();
  close(file);
  dl_iterate_phdr(find_program, NULL);
  first = atol(getenv("REFUSE_FIRST"));
  last = atol(getenv("REFUSE_LAST"));
  note = place;
}

static int is_refused(void *caller) {
  if (!note || (ElfW(Addr))caller < begin || (ElfW(Addr))caller >= end) return 0;
  long at = ++note->asked;
  if (at < first || at > last) return 0;
  note->refused++;
  errno = ENOMEM;
  return 1;
}

void *malloc(size_t size) {
  return is_refused(__builtin_return_address(0)) ? NULL : __libc_malloc(size);
}

void *realloc(void *block, size_t size) {
  return is_refused(__builtin_return_address(0)) ? NULL : __libc_realloc(block, size);
}
C
cc -O1 -fno-builtin -shared -fPIC -o "$work/refuse.so" "$work/refuse.c"
cat <<'TEXT'
Each growth of the program's memory is refused in turn, and then each with all growths behind it. A single command
ends as with ample memory; or with 70, and the files as they were; or with 74, where the disk wanted memory for the
path of a file, which is a fault of it as any other, and then the files are the old or the new ones. A batch prints a
fair text and ends with its status, which is 70 where a step tells want of memory and 74 where one tells a fault of
the disk; or it prints nothing and ends with 70 or 74, and the files are those behind a front of its history.

TEXT
python3 bench/growths.py "$kdb" "$memory" "$work/refuse.so" "$@"
