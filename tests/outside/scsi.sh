#!/usr/bin/env bash
# Reads the SCSI parts that the project writes with the tools of Debian's sg3-utils: the CDBs of the
# example frames as the program lists them, and the sense and INQUIRY data that the disks' tests
# hold their answers to. Where the tools are missing it is skipped, but in CI it fails.
cd "$(dirname "$0")/../.." || exit 1
program=${1:-./mpt}
disk_tests=crates/scsi_disk/src/tests.rt
passed=0
failed=0

check() { # what it is, what the tool has to say, what it said
    if grep -qF -- "$2" <<<"$3"; then
        passed=$((passed + 1))
    else
        failed=$((failed + 1))
        printf 'outside: %s: the tool did not say "%s" but:\n%s\n' "$1" "$2" "$3"
    fi
}

cdb() { # the CDB's bytes in an example, apart
    "$program" decode scsi < "examples/$1.hex" | sed -n 's/^4[08] CDB //p' | tr -d '\n' | sed 's/../& /g'
}

constant() { # the bytes of a constant of the disks' tests, apart
    tr -d '\n' < "$disk_tests" | sed -n "s/.*const $1: &\[u8\] = *b\"\([^\"]*\)\".*/\1/p" \
        | xargs -0 printf '%b' | od -An -v -tx1 | tr -d '\n'
}

if ! command -v sg_decode_sense >/dev/null || ! command -v sg_inq >/dev/null; then
    if [ -n "${CI:-}" ]; then
        echo "outside: sg3-utils is missing (Debian's package of that name)"
        exit 1
    fi
    echo "outside: sg3-utils is missing, so its readings are skipped"
    exit 0
fi

while read -r example length name; do
    check "$example" "$name" "$(sg_decode_sense --cdb $(cdb "$example" | cut -d' ' -f"1-$length") 2>&1)"
done <<'EXAMPLES'
test-unit-ready 6 Test Unit Ready
read-10 10 Read(10)
write-10 10 Write(10)
EXAMPLES

while IFS=: read -r name meaning; do
    check "$name" "$meaning" "$(sg_decode_sense $(constant "$name") 2>&1)"
done <<'SENSE'
INVALID_OPERATION_CODE:Invalid command operation code
OUT_OF_RANGE:Logical block address out of range
INVALID_FIELD:Invalid field in cdb
NO_LOGICAL_UNIT:Logical unit not supported
SENSE

inquiry=$(sg_inq --inhex=<(constant INQUIRY_DATA) 2>&1)
check INQUIRY "Vendor identification: MPTSIM" "$inquiry"
check INQUIRY "Product identification: SIMULATED DISK" "$inquiry"
check INQUIRY "Product revision level: 0001" "$inquiry"
check INQUIRY "length=36" "$inquiry"

echo "outside: $passed readings agree, $failed do not"
[ "$failed" -eq 0 ]
