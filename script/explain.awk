# Says in words what the program tells by a status, a fault line or a report. ARGV[1] is what is asked for; behind it
# stand the status, the words of the call, or OLD. The variable TOP of the environment is the top of the repository.
BEGIN {
    if (ARGV[1] == "words") explain_words(ARGV[2])
    else if (ARGV[1] == "help") explain_command(ARGV[2])
    else if (ARGV[1] == "end") explain_end(ARGV[2])
    else if (ARGV[1] == "hint") say_more(ARGV[2])
    else if (ARGV[1] == "fault") explain_fault(ARGV[2], ARGV[3])
    else explain_choice(ARGV[2])
    exit
}

# Says a line, also where a name in it has line breaks.
function say(line) {
    gsub(/[[:cntrl:]]/, "?", line)
    if (line != "") print "rumtsafi: " line
}

# After status 1: the lines on use of a command, or all lines where there is none, and which word has no reading.
function explain_words(command) {
    show_usage(command)
    say(misread(command))
}

# Where help is asked for: the lines on use of a command; of a word that is none the status is 1.
function explain_command(command) {
    show_usage(command)
    if (command in names || command ~ /^(-.*|help)$/) return
    gsub(/[[:cntrl:]]/, "?", command)
    print "rumtsafi: " no_command(command) > "/dev/stderr"
    exit 1
}

function no_command(word) {
    return "there is no command '" word "'; there are:" commands
}

# The lines on use of a command, or all lines where there is none.
function show_usage(command,    n) {
    read_usage()
    for (n = 1; n <= count; n++)
        if (!(command in names) || of[n] == command || (command, about[n]) in takes) print lines[n]
}

# Reads docs/usage.txt: the command or the word that a line is of; what commands take, what of it has to stand, and what
# may stand again; and what values are.
function read_usage(    line, command, part, n, i, name) {
    while ((getline line < (ENVIRON["TOP"] "/docs/usage.txt")) > 0) {
        lines[++count] = line
        split(line, part, " ")
        if (line ~ /^rumtsafi/) command = part[2]
        if (line ~ /^(rumtsafi|   )/) of[count] = command
        if (line ~ /^  (--|[A-Z])/) for (i = 1; i == 1 || part[i - 1] ~ /,$/; i++) {
            name = part[i]
            gsub(/^--|,$/, "", name)
            if (i == 1) about[count] = name
            if (match(line, /[0-9]+ (to|or) [0-9]+/)) kind[name] = substr(line, RSTART, RLENGTH)
            else if (part[2] == "ADDR" || line ~ /0x/) kind[name] = "address"
        }
        if (line !~ /^rumtsafi [a-z]|^   +\[?--/) continue
        sub(/^(rumtsafi [a-z]+ ?| +)/, "", line)
        sub(/  .*/, "", line)
        if (!(command in names)) commands = commands " " command
        names[command] = names[command] ""
        n = split(line, part, " ")
        for (i = 1; i <= n; i++) {
            name = part[i]
            if (!sub(/--/, "", name)) names[command] = names[command] " " name
            else {
                if (!sub(/\[/, "", name)) needs[command] = needs[command] " " name
                if (part[++i] ~ /\.\.$/) repeated[name]
            }
            takes[command, name]
        }
    }
}

# Why words have no reading, where that can be told.
function misread(command,    i, word, why, ended, given, wanted, some, n) {
    if (ARGC < 3) return "a command is missing; there are:" commands
    if (command ~ /^(-h|--help|--version|--build)$/) return command " stands alone"
    if (!(command in names)) return no_command(command)
    for (i = 3; i < ARGC && why == ""; i++) {
        word = ARGV[i]
        if (ended || word !~ /^-./) given[++some] = word
        else if (word == "--") ended = 1
        else if (word !~ /^--/) why = command " has no option '" word "'"
        else if ((why = misread_option(command, word, i + 1)) == "" && word !~ /=/) i++
    }
    n = split(names[command], wanted, " ")
    for (i = 1; i <= n && why == ""; i++)
        if (i > some) why = command " takes" names[command] ", and " wanted[i] " is missing"
        else why = misread_value(wanted[i], wanted[i], given[i])
    if (why == "" && some > n) why = command " takes" names[command] ", and '" given[n + 1] "' is a word too many"
    n = split(needs[command], wanted, " ")
    for (i = 1; i <= n && why == ""; i++) if (!(wanted[i] in seen)) why = command " needs --" wanted[i]
    return why == "" && twice != "" ? command " can't write '" twice "', which it names twice" : why
}

function misread_option(command, word, behind,    option, at) {
    at = index(word "=", "=")
    option = substr(word, 3, at - 3)
    if (option !~ /^[a-z]+$/ || !((command, option) in takes)) return command " has no option '--" option "'"
    if (option in seen && !(option in repeated)) return "--" option " stands twice"
    seen[option]
    if (word !~ /=/ && behind >= ARGC) return "--" option " lacks its value"
    return misread_value("--" option, option, word ~ /=/ ? substr(word, at + 1) : ARGV[behind])
}

function misread_value(shown, name, value,    n, to) {
    if (value == "") return shown " is empty"
    if (value ~ /^-/) return shown " can't be '" value "': no name or value begins with -"
    n = split(kind[name], to, " ")
    if (n == 0 && value in files && twice == "") twice = value
    if (n == 0) files[value]
    if (n == 1 && (value !~ /^0x[0-9A-Fa-f]+$/ || length(value) > 10))
        return shown " takes 0x and one to eight hex digits, which '" value "' is not" \
            (name == "at" && value ~ /^[A-Za-z_]/ ? "; views/block takes the name of a function" : "")
    if (n == 3 && (value ~ /[^0-9]/ || length(value) > 10 || value + 0 < to[1] + 0 || value + 0 > to[3] + 0))
        return shown " takes a number from " to[1] " to " to[3] ", which '" value "' is not"
}

# Says a fault line by the first row of docs/faults.tsv that fits it and its call. What the call printed is read, with a
# dot behind it: as a name may have newlines, all of that is the line. A part of the answer stands before it only where
# standard output didn't take the rest; commands that write files put none that begins so: there it's a line with a name.
function explain_fault(status, call,    i, line, text, row, part, n, name, fits, at) {
    for (i = 4; i < ARGC && call !~ / /; i++) if (ARGV[i] ~ /^--at(=|$)/) call = call " --at"
    while ((getline line < "-") > 0) text = text line "\n"
    if (!sub(/\n\.\n$/, "", text) || status <= 1) return
    if (status == 3 && text ~ /fault 3 write -$/ &&
        !(text ~ /^fault 3 write / && call ~ /^(asm|find|gates|relog|rename)$/))
        text = "fault 3 write -"
    if (index(text, "fault " status " ") != 1) return
    while ((getline row < (ENVIRON["TOP"] "/docs/faults.tsv")) > 0) {
        split(row, part, "\t")
        fits = part[1]
        # The name of a file ends its line, and may hold blanks.
        sub(/[{]NAME}/, ".*", fits)
        gsub(/[{][A-Z]+}/, "[^ ]+", fits)
        if (row ~ /^#/ || part[2] != "*" && part[2] != call || text !~ ("^" fits "$")) continue
        n = split(part[1], name, /[ {}]+/)
        for (i = 1; i <= n; i++) {
            at = name[i] == "NAME" ? length(text) + 1 : index(text " ", " ")
            value[name[i]] = substr(text, 1, at - 1)
            text = substr(text, at + 1)
        }
        n = split(part[3], part, /[{}]/)
        for (i = 2; i < n; i += 2) part[1] = part[1] value[part[i]] part[i + 1]
        say(part[1])
        return
    }
}

# Says what helps further after a status.
function say_more(status) {
    if (status == 6) say_key()
    if (status == 11)
        say("check takes the options that find had: REPORT's second line tells --in, --out, --count and --budget, " \
            "and --steps, --input, --table and --leader are due as they were")
}

# Names the first key of the table of a call that the table of latencies doesn't have, where it stands on a line of its
# own, as such tables are written.
function say_key(    i, name, line, place, part, known) {
    for (i = 4; i < ARGC; i++)
        if (ARGV[i] == "--table") name = ARGV[i + 1]
        else if (ARGV[i] ~ /^--table=/) name = substr(ARGV[i], 9)
    known[""] = " read pad software hardware "
    known["hardware"] = " add logic shift shift_const compare lui mul mulh "
    known["software"] = known["hardware"] "load store branch jump auipc div fence system "
    while (name != "" && (getline line < name) > 0) {
        sub(/[ \t]*#.*/, "", line)
        if (line ~ /^[ \t]*\[/) {
            gsub(/[][ \t"']/, "", line)
            place = line
            if (!(place in known)) {
                say("'" name "' has the table [" place "], and there are software and hardware")
                return
            }
        } else if (split(line, part, /[ \t]*=/) > 1) {
            gsub(/[ \t"']/, "", part[1])
            if (index(known[place], " " part[1] " ") == 0) {
                say("'" name "' has the key " part[1] "; " (place == "" ? "on top" : place) " has" known[place])
                return
            }
        }
    }
}

# Says why a run without units ended at a word of one; what it printed is read, with a dot behind it.
function explain_end(call,    i, line, last, part) {
    for (i = 3; i < ARGC; i++) if (ARGV[i] ~ /^--units(=|$)/) return
    while ((getline line < "-") > 0) if (line != ".") last = line
    if (call != "run" || last !~ /^end illegal [0-9a-f]+ steps/) return
    split(last, part, " ")
    # The opcodes custom-0 and custom-1, with the lowest bit of the register that is written.
    if (part[3] ~ /[082a]b$/)
        say("the run ended at the custom word " part[3] ": of a program that find wrote, --units gives the units")
}

# Says what a choice for OLD rests on and what may be missing from it, by its report, which is read.
function explain_choice(old,    end, given_up, budget, steps, ran, part) {
    while ((getline < "-") > 0)
        if ($1 == "block") ran[$2] = $4 * $6
        else if ($1 == "skip") {
            given_up++
            budget = $6
            part += ran[$4]
            # A block may be given up several times.
            ran[$4] = 0
        } else if ($1 == "profile") {
            steps = $(NF - 2)
            end = substr($0, 9, index($0, " steps ") - 9)
            if ($2 == "exit") continue
            end = (end == "limit" ? "--steps cut it off" : "'" end "' ended it") " after " steps " steps"
            say("the run of '" old "' didn't exit: " end ", and the choice rests on these alone")
        }
    if (given_up)
        say(given_up (given_up == 1 ? " search that needs" : " searches that need") " more than " budget " branches " \
            (given_up == 1 ? "was" : "were") " given up, of " \
            (given_up == 1 ? "a block that has" : "blocks that have") " " share(part, steps) " of the steps: " (budget < 4194304 ? "a greater --budget" : "--out 1") \
            " may find more, and views/tune tells the call")
}

# A part of a whole in percent, with a digit behind the point where it is small.
function share(part, whole) {
    if (whole == 0) return "0 %"
    return sprintf(part > whole / 10 ? "%.0f %%" : "%.1f %%", 100 * part / whole)
}
