#!/bin/sh
# Runs the commands of each story as they stand in its text, with gcc and with clang; those of `hosted` with gcc alone.
#
# Call: run.sh [gcc|clang]... It wants Debian's gcc-riscv64-unknown-elf, picolibc-riscv64-unknown-elf, clang, lld,
# qemu-user and make, and Python 3. It takes the built program, or the model in tools/model where FLOWCHECK is not set
# and there is none. See run_story.py.
cd "$(dirname "$0")" || exit 1
status=0
for compiler in ${*:-gcc clang}; do
    stories='password redactor auction bound truth pinpad meeting battleship picture calendar digest'
    [ "$compiler" = clang ] || stories="$stories hosted"
    for story in $stories; do
        python3 run_story.py "$compiler" "$story" || status=1
    done
done
exit $status
