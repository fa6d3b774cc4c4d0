#!/usr/bin/env bash
# Builds crates/mpt_c/out/libmpt.a, the one library that a C program links: what rt proves and builds, with the kit's
# few lines over malloc and free, and no other global name than those that begin with mpt_.
cd "$(dirname "$0")/../../crates/mpt_c" || exit 1
kit=$(dirname "$(dirname "$(readlink -f "$(command -v rt)")")")
for tool in ld objcopy ar; do
    if ! command -v $tool >/dev/null; then
        echo "c: $tool is missing (Debian's package binutils)"
        exit 1
    fi
done
python3 ../../tests/c/library.py || rt lib || exit 1
rm -f out/libmpt.a
ld -r -o out/mpt.o --whole-archive out/libmpt_c.a --no-whole-archive "$kit/c/liblibc_c.a" &&
    objcopy --wildcard --keep-global-symbol 'mpt_*' out/mpt.o &&
    ar rcs out/libmpt.a out/mpt.o
