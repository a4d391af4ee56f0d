#!/usr/bin/env bash
# Compares the program in bin/ with a program that was built from the present sources:
#
#     compare_shipped.sh PROGRAM
#
# It ends with status 1 where the two differ, or the one in bin/ doesn't run, though bin/ is of the present sources and
# of the present toolchain. Where bin/ is not, it says that bin/ is stale.
set -eu

root=$(CDPATH='' cd -- "$(dirname -- "${BASH_SOURCE[0]}")/../.." && pwd)
shipped=$root/bin/rumtsafi

# shellcheck source=script/build.sh
. "$root/script/build.sh"

if [ ! -e "$shipped" ]; then
    echo "stale: there is no bin/rumtsafi"
elif [ "$(built_from "$shipped" sources)" != "$(sources)" ]; then
    echo "stale: a source has changed since bin/rumtsafi was built; checks/repository/renew_program.sh renews it"
elif [ "$(built_from "$shipped" toolchain)" != "$(rt version)" ]; then
    echo "stale: bin/rumtsafi was built by $(built_from "$shipped" toolchain); checks/repository/renew_program.sh renews it"
elif cmp -- "$shipped" "$1" && runs "$shipped"; then
    echo "bin/rumtsafi has the same bits"
else
    echo "bin/rumtsafi is not what its sources give, or doesn't run: checks/repository/renew_program.sh renews it"
    exit 1
fi
