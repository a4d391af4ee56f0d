# shellcheck shell=bash disable=SC2154
# What the program is made from, how it is built into out/, and the answers to --version and --build. The script that
# reads this file has `root`, the top of the repository, `say` and `fail`; for the answers also the places of programs.

main=ci_main out=$root/out
# The seconds after which a line says again how far a build is, and the memory in kB that the check of a crate may take.
pause=30 share=3000000

# A hash of crates.txt and of the names and contents of the code of the crates that the program is made of. The
# definitions and proofs in specs/ and proofs/ leave nothing in it.
sources() {
    cd -- "$root" || return
    awk -F '[:, \t]+' -v main="$main" '
        { sub(/#.*/, ""); uses[$1] = $0 }
        function visit(name, part, n) {
            if (!(name in uses) || seen[name]++) return
            for (n = split(uses[name], part); n > 1; n--) visit(part[n])
            print "crates/" name "/src"
        }
        END { print "crates.txt"; visit(main) }' crates.txt |
        xargs -I '{}' find '{}' -type f -print0 2> /dev/null | LC_ALL=C sort -z | xargs -0 sha256sum | sha256sum |
        cut -d ' ' -f 1
}

# What a program was built from, `sources` or `toolchain`, by the file that stands beside it; and that file's text for a
# program that is built now.
built_from() { [ ! -r "$1.sources" ] || sed -n "s/^$2 //p" "$1.sources"; }
stamp() { printf 'sources %s\ntoolchain %s\n' "$1" "$(rt version)"; }

# Puts a program into a place, with what it was built from.
keep_program() {
    cp -- "$1" "$2.new"
    rm -f -- "$2.sources"
    mv -f -- "$2.new" "$2"
    echo "$3" > "$2.sources"
}

# Whether a program runs on this machine. To list an empty file is a call of the program that succeeds.
runs() { { [ -x "$1" ] && "$1" dis /dev/null; } > /dev/null 2>&1; }

# Runs `rt` in a folder, and says now and then how far it is. Its text goes into the log, and a failure is shown.
call_rt() {
    local said=$SECONDS failed
    (cd -- "$1" && exec rt "${@:2}") >> "$out/build.log" 2>&1 < /dev/null 9>&- &
    child=$!
    while sleep 0.1 9>&- && kill -0 "$child" 2> /dev/null; do
        ((SECONDS < said + pause)) || say "$(grep -c '^== ' "$out/build.log") crates are done ($((said = SECONDS)) s)"
    done
    failed=$child child=''
    wait "$failed" && return
    failed=$(sed -n 's/^\([a-z0-9_]*\): failed.*/\1/p' "$out/build.log" | xargs)
    grep -vE ': (proved|ok)$|^(logic|statements|axioms|library|crate) ' "$out/build.log" | tail -n 60 >&2 || true
    fail "${failed:+crate $failed: }the program did not build; out/build.log has all that rt said"
}

# Proves the crates, side by side on as many processors as memory allows, and builds the program. The old one stays
# until the new one is whole.
build() {
    local before lanes
    grep -q "^ *$main:" "$root/crates.txt" || fail "crates.txt names no crate $main"
    before=$(sources)
    lanes=$(awk -v share="$share" -v most="$(nproc)" '/^MemAvailable:/ { free = int($2 / share) }
        END { lanes = free < most ? free : most; print lanes < 1 ? 1 : lanes }' /proc/meminfo)
    child=''
    trap '[ -z "$child" ] || kill "$child"' EXIT
    trap 'exit 130' INT
    trap 'exit 143' TERM HUP
    say "proving and building the program takes a quarter of an hour or more from nothing:" \
        "$(grep -cE '^ *[a-z0-9_]+[^#]*:' "$root/crates.txt") crates, $lanes at a time"
    : > "$out/build.log"
    SECONDS=0
    call_rt "$root" all check --jobs "$lanes"
    say "linking the program ($SECONDS s)"
    call_rt "$root/crates/$main" run -- dis /dev/null
    [ "$before" = "$(sources)" ] || fail "a source changed during the build; call it again"
    keep_program "$root/crates/$main/out/$main" "$out/rumtsafi" "$(stamp "$before")"
    trap - EXIT INT TERM HUP
    say "built in $SECONDS s"
}

# Builds the program, where out/ hasn't that of the present sources, and where no other call has done so meanwhile.
build_alone() {
    for tool in rt flock; do
        command -v "$tool" > /dev/null || fail "there is no $tool on the PATH to build the program"
    done
    { mkdir -p -- "$out" && : >> "$out/lock"; } 2> /dev/null || fail "$out can't be written to"
    exec 9>> "$out/lock"
    flock -n 9 || { say "waiting for another call to build the program"; flock 9; }
    runs "$out/rumtsafi" && [ "$(stamp "$(sources)")" = "$(cat -- "$out/rumtsafi.sources")" ] || build
    exec 9>&-
}

# Says the version, by CHANGELOG.md, and what the program was built from.
show_version() {
    local from='other sources'
    awk '$1 == "##" && $2 == "Unreleased" { more = ", and later changes"; next }
         $1 == "##" { print "rumtsafi " $2 more; exit }' "$root/CHANGELOG.md"
    [ -e "$program" ] || { echo "program none: ./rumtsafi --build builds it"; return; }
    [ "$(built_from "$program" sources)" != "$(sources)" ] || from='these sources'
    runs "$program" || from+="; it doesn't run on this machine"
    echo "program ${program#"$root/"}, built from $from"
    [ ! -r "$program.sources" ] || cat -- "$program.sources"
}

# Builds the program into out/, and compares it with the shipped one where that was built from the same.
build_only() {
    build_alone
    # The newer of both programs runs. Without -c, `touch` would open it to write, and for that moment the system would
    # start it for no other call.
    touch -c -- "$built"
    if cmp -s -- "$shipped" "$built"; then
        echo "out/rumtsafi has the same bits as bin/rumtsafi"
    elif cmp -s -- "$shipped.sources" "$built.sources"; then
        fail "out/rumtsafi and bin/rumtsafi differ, though they were built from the same sources by the same toolchain"
    else
        echo "out/rumtsafi is built; there is no bin/rumtsafi of the same sources and toolchain to compare it with"
    fi
}
