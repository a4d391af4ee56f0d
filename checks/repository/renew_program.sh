#!/usr/bin/env bash
# Renews the program in bin/, which ships with its sources: builds it into out/, where that isn't done, and copies it
# with what it was built from. To be called for the last commit of each piece of work.
set -eu

root=$(CDPATH='' cd -- "$(dirname -- "${BASH_SOURCE[0]}")/../.." && pwd)

say() {
    echo "renew_program: $*" >&2
}

fail() {
    say "$1"
    exit 70
}

# shellcheck source=script/build.sh
. "$root/script/build.sh"

build_alone
mkdir -p -- "$root/bin"
keep_program "$out/rumtsafi" "$root/bin/rumtsafi" "$(cat -- "$out/rumtsafi.sources")"
say "bin/rumtsafi is the program of the present sources: commit bin/"
