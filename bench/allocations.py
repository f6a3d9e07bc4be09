"""Runs a program, with a stack of one mebibyte, under a library that counts its allocations and refuses some of them, and tells its most memory."""

import dataclasses
import os
import struct
import subprocess

import processes

# What stands in the place of the C library's calls. It tells the number of allocations in the file that the first name tells, as they come, so also
# where the program is ended by a signal; and at the program's end the greatest memory that the process had. Room of a list that was never
# used is no memory, so that isn't told by the sizes of allocations. Several threads may allocate: which of their allocations has which number may differ
# from run to run.
LIBRARY = r"""
#include <errno.h>
#include <fcntl.h>
#include <stdlib.h>
#include <string.h>
#include <sys/mman.h>
#include <sys/syscall.h>
#include <unistd.h>

extern void *__libc_malloc(size_t), *__libc_calloc(size_t, size_t), *__libc_realloc(void *, size_t);

struct told { long calls, kibibytes; };
static struct told own, *told = &own;
static long first, last;

__attribute__((constructor)) static void begin(void) {
    const char *name = getenv("ALLOCATIONS_TOLD"), *from = getenv("ALLOCATIONS_FIRST"), *to = getenv("ALLOCATIONS_LAST");
    int file = name ? open(name, O_RDWR) : -1;
    void *page = file < 0 ? MAP_FAILED : mmap(0, sizeof own, PROT_READ | PROT_WRITE, MAP_SHARED, file, 0);
    first = from ? atol(from) : 0;
    last = to ? atol(to) : 0;
    if (page != MAP_FAILED)
        told = page;
}

__attribute__((destructor)) static void end(void) {
    static char text[4096];
    int file = open("/proc/self/status", O_RDONLY);
    long size = file < 0 ? 0 : read(file, text, sizeof text - 1);
    const char *found = size > 0 ? strstr(text, "VmHWM:") : 0;
    told->kibibytes = found ? atol(found + 6) : 0;
}

// A program that may have threads ends by this, which runs no destructors.
void _exit(int status) {
    end();
    syscall(SYS_exit_group, status);
    for (;;) {}
}

static int is_refused(void) {
    long call = __sync_add_and_fetch(&told->calls, 1);
    errno = ENOMEM;
    return first <= call && call <= last;
}

void *malloc(size_t size) {
    return is_refused() ? 0 : __libc_malloc(size);
}

void *calloc(size_t count, size_t size) {
    return is_refused() ? 0 : __libc_calloc(count, size);
}

void *realloc(void *given, size_t size) {
    return is_refused() ? 0 : __libc_realloc(given, size);
}
"""

TOLD = struct.Struct("ll")

# The library stands in front of the program alone, which has a stack of one mebibyte.
LITTLE_STACK = ["/bin/sh", "-c", 'ulimit -s 1024; export LD_PRELOAD="$ALLOCATIONS_LIBRARY"; exec "$@"', "sh"]


@dataclasses.dataclass
class Ran:
    """How a program ended: its status, which is negative for a signal and None where it took too long, its output and its note, how often it
    allocated, and the most bytes of memory that the process had, where it ended by itself."""

    status: int | None
    output: bytes
    note: bytes
    calls: int
    most: int


class Allocations:
    """The library, in a folder in which programs run, each for so many seconds of processor time at most."""

    def __init__(self, folder, seconds=60):
        self.folder = folder
        self.seconds = seconds
        self.told = os.path.join(folder, "allocations")
        self.library = os.path.join(folder, "allocations.so")
        made = ["cc", "-O2", "-shared", "-fPIC", "-x", "c", "-o", self.library, "-"]
        subprocess.run(made, input=LIBRARY.encode(), check=True)

    def run(self, words, given=b"", first=0, last=0):
        """Runs the words, where the allocations from the first to the last are refused, the first one being 1; 0 refuses none."""
        with open(self.told, "wb") as file:
            file.write(bytes(TOLD.size))
        names = {"ALLOCATIONS_LIBRARY": self.library, "ALLOCATIONS_TOLD": self.told, "ALLOCATIONS_FIRST": str(first), "ALLOCATIONS_LAST": str(last)}
        ended = processes.run([*LITTLE_STACK, *words], self.seconds, given, self.folder, {**os.environ, **names})
        with open(self.told, "rb") as file:
            calls, kibibytes = TOLD.unpack(file.read())
        return Ran(ended.status, ended.output, ended.note, calls, kibibytes << 10)
