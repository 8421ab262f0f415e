#!/bin/sh
# Fails; it says first where a C library comes from, where one of these sources, or a header of their folders, wants one.
wanted='^ *# *include *<(stdio|stdlib|string|strings|ctype|math|time|assert)\.h>'
if grep -qE "$wanted" "$@" || grep -qsE "$wanted" *.h; then
    if test -d /usr/lib/picolibc/riscv64-unknown-elf; then
        echo "A guest has string.h, stdlib.h and ctype.h of picolibc. For printf, fgets and the like build it as those" \
            "of examples/hosted are; its README.md tells how." >&2
    else
        echo "There is no C library: apt-get install picolibc-riscv64-unknown-elf. Without it flowcheck.h has the" \
            "calls, memcpy, memmove, memset and memcmp." >&2
    fi
fi
exit 1
