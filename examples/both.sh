#!/bin/sh
# Prints how many bits the runs of guests in this folder have, made with gcc and with clang.
#
# Call: ../both.sh GUEST... [VARIABLE=VALUE]... The variables are those of guests/Makefile, as PUBLIC=FILE.
set -e
guests='' variables=''
for word; do
    case $word in
        *=*) variables="$variables $word" ;;
        *) guests="$guests $word" ;;
    esac
done
bits() {
    report=$(make -sB "$1.report" $variables COMPILER="$2")
    report=${report#bits }
    echo "${report%% *}"
}
for guest in $guests; do
    with_gcc=$(bits "$guest" gcc)
    with_clang=$(bits "$guest" clang)
    echo "bits of $guest: $with_gcc with gcc, $with_clang with clang"
    make -sB "$guest.elf" $variables
done
