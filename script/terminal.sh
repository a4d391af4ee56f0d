# shellcheck shell=bash disable=SC2154
# Runs the program where standard error is a terminal: says how long a command runs, and a fault line in words. The
# script that reads this file has `run_program`, `explain`, `endings` and `status`.

# The seconds after which a command says how long it has run, and more bytes than a fault line has: a word has 131,071.
patience=2 most=262144

# Output to the terminal goes through a process that passes it on and keeps its end. Elsewhere it is left alone, and a
# fault line is read back from a file; one that went into a pipe is not seen.
run_at_terminal() {
    local kept=/proc/$$/fd/1 begin=0 flags=0 watching
    if [ -t 1 ]; then
        exec 3>&1 4> /dev/null
        # A file without a name; without one, no fault line is said in words.
        if kept=$(mktemp 2> /dev/null); then exec 4> "$kept"; rm -f -- "$kept"; fi
        kept=/proc/$$/fd/4
        exec > >(outlive; { await_output; exec cat; } | { tee >(tail -c "$most" >&4); wait "$!"; })
    else
        exec 3> >(outlive; await_output)
        [ ! -f "$kept" ] || { read -r _ begin; read -r _ flags; } < "/proc/$$/fdinfo/1"
        # Behind the last byte, where a file is appended to (O_APPEND).
        ((!(flags & 02000))) || begin=$(stat -L -c %s "$kept")
    fi
    watching=$!
    run_program "$@"
    [ ! -t 3 ] || exec >&3
    exec 3>&-
    wait "$watching" || true
    [ -f "$kept" ] || return 0
    case $status:${1-} in
        0:run) printed "$kept" "$begin" | explain end "$@" >&2 ;;
        0:*) ;;
        *)
            printed "$kept" "$begin" | explain fault "$status" "$@" >&2
            explain hint "$status" "$@" < /dev/null >&2
            ;;
    esac
}

# The end of what was printed, with a dot behind it.
printed() {
    tail -c "+$(($2 + 1))" "$1" 2> /dev/null | tail -c "$most" | tr -d '\0'
    echo .
}

# What a signal ends is the program, and that ends what calls this.
outlive() {
    # shellcheck disable=SC2086
    trap '' $endings
}

# Waits until standard input has a byte or has ended. Where that takes long, in the foreground of the terminal, it says
# meanwhile how long.
await_output() {
    local pace=0.01 shown=$((patience - 1)) said='' words begun elapsed
    begun=${EPOCHREALTIME/[.,]/}
    until read -r -t 0; do
        sleep "$pace"
        pace=0.05
        elapsed=$(((${EPOCHREALTIME/[.,]/} - begun) / 1000000))
        ((elapsed > shown)) || continue
        # Behind the name stand the state, the parent, the group, the session, the terminal and its group in front.
        words=$(< "/proc/$$/stat")
        read -r -a words <<< "${words##*) }"
        [ "${words[2]}" = "${words[5]}" ] || continue
        shown=$elapsed
        said="rumtsafi: running, $elapsed s"
        printf '\r%s' "$said" >&2
    done
    [ -z "$said" ] || printf '\r%*s\r' "${#said}" '' >&2
}
