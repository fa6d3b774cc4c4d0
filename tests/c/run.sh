#!/usr/bin/env bash
# Builds the library and the C examples with the system's compiler, all warnings as errors, runs them, and compares
# what they write with what is stored. Where there is no compiler it fails and names the package.
cd "$(dirname "$0")/../.." || exit 1
compiler=${CC:-cc}
if ! command -v "$compiler" >/dev/null; then
    echo "c: $compiler is missing (Debian's package gcc)"
    exit 1
fi
room=$(mktemp -d) || exit 1
trap 'rm -rf "$room"' EXIT
tests/c/library.sh >"$room/library" 2>&1 || {
    tail -n 20 "$room/library"
    echo "c: no library"
    exit 1
}
library=crates/mpt_c/out/libmpt.a
failed=0

differs() { # what it is, what was written, what is stored
    if ! diff "$2" "$3"; then
        echo "c: $1: what was written (<) is not what is stored (>)"
        failed=1
    fi
}

# The library's global names.
if nm --defined-only --extern-only "$library" | awk 'NF == 3 { print $3 }' | grep -v '^mpt_'; then
    echo "c: the library has a global name that doesn't begin with mpt_"
    failed=1
fi

for source in examples/c/*.c tests/c/*.c; do
    name=$(basename "$source" .c)
    wrap=
    [ "$name" = border ] && wrap=-Wl,--wrap=malloc,--wrap=realloc
    "$compiler" -std=c99 -Wall -Wextra -Wpedantic -Werror -O1 -g -Iinclude -o "$room/$name" "$source" "$library" \
        $wrap || failed=1
done

# Under valgrind, where it is there: a wrong access or a leak ends a run with status 99.
checked=
command -v valgrind >/dev/null && checked="valgrind -q --leak-check=full --error-exitcode=99"

decode() { # the form, the example; a refusal ends with 3
    $checked "$room/decode" "$1" "examples/$2.hex"
    [ $? -eq 99 ] && failed=1
}
decode scsi test-unit-ready >"$room/listing"
differs "decode scsi" "$room/listing" crates/mpt_cli/stdout
{
    decode post post-scsi-io
    decode answer address-reply
    decode scsi reserved-byte-set
} >"$room/decode.stdout"
differs decode "$room/decode.stdout" examples/c/decode.stdout

for name in device both; do
    $checked "$room/$name" >"$room/$name.stdout" || failed=1
    differs $name "$room/$name.stdout" examples/c/$name.stdout
done

$checked "$room/border" || failed=1

[ "$failed" -eq 0 ] && echo "c: the examples ran${checked:+ under valgrind}, and wrote what is stored"
exit "$failed"
