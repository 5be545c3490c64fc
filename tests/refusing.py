"""What tests/alloc and tests/alloc-serving share: a malloc that counts its calls and refuses one, and their page."""

import os
import struct
import subprocess
from typing import Dict

from harness import TOP

PAGE = f"{TOP}/tests/alloc.md"
# Counts the allocations of all threads in a file that is mapped, and refuses one of them.
REFUSER = r"""
#include <errno.h>
#include <fcntl.h>
#include <stdlib.h>
#include <sys/mman.h>
#include <unistd.h>
void *__libc_malloc(size_t), *__libc_realloc(void *, size_t), *__libc_calloc(size_t, size_t);
static long *calls, refused_call;
__attribute__((constructor)) static void begin(void) {
    int file = open(getenv("ALLOCATIONS"), O_RDWR);
    void *found = mmap(NULL, sizeof(long), PROT_READ | PROT_WRITE, MAP_SHARED, file, 0);
    close(file);
    refused_call = atol(getenv("REFUSED_ALLOCATION"));
    calls = found;
}
/* whether the call is the one to be refused */
static int refused(void) {
    if (!calls || __atomic_add_fetch(calls, 1, __ATOMIC_SEQ_CST) != refused_call) return 0;
    errno = ENOMEM;
    return 1;
}
void *malloc(size_t n) { return refused() ? NULL : __libc_malloc(n); }
void *realloc(void *p, size_t n) { return refused() ? NULL : __libc_realloc(p, n); }
void *calloc(size_t k, size_t n) { return refused() ? NULL : __libc_calloc(k, n); }
"""


def content(path: str) -> bytes:
    with open(path, "rb") as file:
        return file.read()


class Refuser:
    """The library that is preloaded, in a folder, and the count of allocations."""

    def __init__(self, room: str):
        self.library, self.counted = f"{room}/refuser.so", f"{room}/allocations"
        words = ["cc", "-O1", "-fno-builtin", "-shared", "-fPIC", "-x", "c", "-", "-o", self.library]
        subprocess.run(words, input=REFUSER.encode(), check=True)

    def environment(self, number: int) -> Dict[str, str]:
        """That of a run whose allocation of this number is refused, 0 for none."""
        with open(self.counted, "wb") as file:
            file.write(bytes(8))
        given = {"LD_PRELOAD": self.library, "ALLOCATIONS": self.counted, "REFUSED_ALLOCATION": str(number)}
        return {**os.environ, **given}

    def count(self) -> int:
        """How many allocations the last run made, as far as it came."""
        return int(struct.unpack("l", content(self.counted))[0])
