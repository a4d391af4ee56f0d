"""Makes what goes by docs/usage.txt and docs/faults.tsv, or tells which of it isn't current.

It writes the man page and the completions in share/, and in README.md and docs/GUIDE.md the fenced block marked `usage`
and the table of faults between the lines `<!-- faults -->` and `<!-- /faults -->`, where there are any.
"""
import os
import re
import sys

from checks.common import TOP, end, text_of, words

MADE = "Made by checks/repository/usage.py from docs/usage.txt"
DOCUMENTS = ["README.md", "docs/GUIDE.md"]
NUMBER, ADDRESS, FILE = "number", "address", "file"
COLUMNS = 120


class Command:
    """A command: its name, the words behind it, its options and those that must stand or may be repeated."""

    def __init__(self, name, form, about):
        self.name, self.form, self.about = name, form, about
        found = re.findall(r"(\[?)--(\w+) \w+\]?(\.\.)?", form)
        self.options = [option for _, option, _ in found]
        self.needed = [option for bracket, option, _ in found if not bracket]
        self.repeated = [option for _, option, dots in found if dots]
        self.words = re.sub(r"\[?--\w+ \w+\]?(\.\.)?", "", form).split()


class Value:
    """An option's value, or a word behind a command: a number where its line says a range, an address, or a file."""

    def __init__(self, name, word, about):
        self.name, self.word, self.about = name, word, about
        found = re.search(r"(\d+) (?:to|or) (\d+)", about)
        self.range = found.groups() if found else None
        self.kind = NUMBER if found else ADDRESS if word == "ADDR" or "0x" in about else FILE
        if word == "N" and not found:
            sys.exit(f"docs/usage.txt: the line of --{name} lacks the range of its number")


def usage():
    """What docs/usage.txt has: the commands, the calls of the script itself (each with what it does), the options, and
    the words behind commands, each by its name."""
    commands, calls, options, words = [], [], [], {}
    for line in text_of("docs/usage.txt").splitlines():
        call = re.fullmatch(r"rumtsafi (\S+) ?(.*?)(?:  +(.*))?", line)
        option = re.fullmatch(r"  --(\w+) (\w+) +(.*)", line)
        word = re.fullmatch(r"  ([A-Z]+(?:, [A-Z]+)*)  +(.*)", line)
        more = re.fullmatch(r" {20,}(.*)", line)
        if call and call[1].startswith("-"):
            calls.append((call[1], call[3]))
        elif call:
            commands.append([call[1], call[2], call[3] or ""])
        elif option:
            options.append(Value(*option.groups()))
        elif word:
            words.update({name: Value(name, name, word[2]) for name in word[1].split(", ")})
        elif more and commands and more[1].startswith("["):
            commands[-1][1] += f" {more[1]}"
        elif more and commands:
            commands[-1][2] = f"{commands[-1][2]} {more[1]}".strip()
        elif line:
            sys.exit(f"docs/usage.txt: a line that is no call, no option and no text: {line}")
    commands = [Command(*it) for it in commands]
    known = {option.name for option in options}
    for command in commands:
        if not set(command.options) <= known:
            sys.exit(f"docs/usage.txt: an option of {command.name} has no line of its own")
        words.update({name: Value(name, name, "") for name in command.words if name not in words})
    return commands, calls, options, words


def faults():
    """The rows of docs/faults.tsv: a line with names in braces, the call that it is of, and words."""
    lines = [line for line in text_of("docs/faults.tsv").splitlines() if not line.startswith("#")]
    return [line.split("\t") for line in lines]


def table_of_faults():
    """The rows as a Markdown table."""
    lines = ["| Line | In words |", "|---|---|"]
    for line, of, words in faults():
        of = "" if of == "*" else f" of `{of}`"
        lines.append(re.sub(r"[{}]", "", f"| `{line}`{of} | {words} |"))
    for line in lines:
        if len(line) > COLUMNS:
            sys.exit(f"docs/faults.tsv: this row makes a line of more than {COLUMNS} columns: {line}")
    return "\n".join(lines)


def completions(commands, calls, options, words):
    """The completions for bash: of the command, of its options, and of files where a name is due."""
    def end_of_files(command):
        files = sum(words[name].kind == FILE for name in command.words)
        if files == len(command.words):
            return ""
        return f'; [ "$COMP_CWORD" -le {files + 1} ] || [[ $word = -* ]] || return'

    names = " ".join(command.name for command in commands)
    own = " ".join(call for call, _ in calls)
    texts = " | ".join(f"--{option.name}" for option in options if option.kind != FILE)
    cases = [f"        {command.name}) options='{' '.join('--' + name for name in command.options)}'"
             f"{end_of_files(command)} ;;" for command in commands]
    return "\n".join([
        "# shellcheck shell=bash",
        f"# {MADE}: completions for bash. To use them: source this file.",
        "",
        "_rumtsafi() {",
        "    local word=${COMP_WORDS[COMP_CWORD]} before=${COMP_WORDS[COMP_CWORD - 1]} options='' words=''",
        "    COMPREPLY=()",
        "    case $COMP_CWORD:${COMP_WORDS[1]} in",
        f"        1:*) words='{names} help {own}' ;;",
        f"        2:help) words='{names}' ;;",
        "    esac",
        '    if [ -n "$words" ]; then',
        '        mapfile -t COMPREPLY < <(compgen -W "$words" -- "$word")',
        "        return",
        "    fi",
        "    case ${COMP_WORDS[1]} in",
        *cases,
        "    esac",
        "    case $before in",
        f"        {texts}) return ;;",
        "    esac",
        "    case $word in",
        '        -*) mapfile -t COMPREPLY < <(compgen -W "$options" -- "$word") ;;',
        '        *) mapfile -t COMPREPLY < <(compgen -f -- "$word") ;;',
        "    esac",
        "}",
        "complete -o filenames -F _rumtsafi rumtsafi ./rumtsafi",
        "",
    ])


def for_man(text):
    """A text for the formatter of man pages."""
    text = text.replace("\\", "\\e").replace("-", "\\-")
    return f"\\&{text}" if text.startswith((".", "'")) else text


def sentence(text):
    """A text for the formatter of man pages, with a mark at its end."""
    return for_man(text) if text.endswith("?") else f"{for_man(text)}."


def man_page(commands, calls, options, words):
    """The man page, of section 1."""
    lines = [
        f'.\\" {MADE} and docs/faults.tsv.',
        ".TH RUMTSAFI 1",
        ".SH NAME",
        "rumtsafi \\- finds custom instructions for RISC\\-V programs",
        ".SH SYNOPSIS",
    ]
    for command in commands:
        lines += [".br", f".B rumtsafi {command.name}", for_man(command.form)]
    for call, _ in calls:
        lines += [".br", f".B rumtsafi {for_man(call)}"]
    lines += [".SH COMMANDS"]
    for command in commands:
        lines += [".TP", f".B {command.name} {' '.join(command.words)}", f"{for_man(command.about)}."]
    for call, about in calls:
        lines += [".TP", f".B {for_man(call)}", f"{for_man(about)}."]
    lines += [".SH OPTIONS", "An option stands anywhere behind the command, also as \\fB\\-\\-name=VALUE\\fR;",
              "\\fB\\-\\-\\fR ends the options.", "A number is one to ten decimal digits, and an address is",
              "\\fB0x\\fR and one to eight hex digits."]
    for option in options:
        lines += [".TP", f".B \\-\\-{option.name} {option.word}", f"{for_man(option.about)}."]
    for about in dict.fromkeys(word.about for word in words.values() if word.about):
        names = ", ".join(word.name for word in words.values() if word.about == about)
        lines += [".TP", f".B {names}", f"{for_man(about)}."]
    lines += [
        ".SH EXIT STATUS",
        "0 comes with the answer, any other status of the program with a fault line on standard output, which begins",
        "with the status; 16 never has one, 12 may lack it, and 3 where standard output takes none.",
        "16: the system didn't give the words; one of them is not UTF\\-8.",
        "70: no program runs here, or none could be built, or it has too little stack; standard error says why.",
        "Above 128: a signal ended the program, of the number above 128.",
        "Where standard error is a terminal, a fault line that went to a terminal or into a file is said there in",
        "words.",
        ".SH FAULT LINES",
    ]
    for line, of, words in faults():
        of = "" if of == "*" else f" ({for_man(of)})"
        lines += [".TP", re.sub(r"[{}]", "", f".B {for_man(line)}{of}"), re.sub(r"[{}]", "", sentence(words))]
    return "\n".join([*lines, ""])


def document(text):
    """A document with its block of usage and its table of faults as they have to be."""
    block, table = f"```usage\n{text_of('docs/usage.txt')}```\n", table_of_faults()
    text = re.sub(r"^```usage\n.*?^```\n", lambda _: block, text, flags=re.M | re.S)
    begin, end = "<!-- faults -->\n", "<!-- /faults -->\n"
    return re.sub(rf"^{begin}.*?^{end}", lambda _: f"{begin}\n{table}\n\n{end}", text, flags=re.M | re.S)


def main():
    parser = words(__doc__)
    parser.add_argument("--check", action="store_true", help="writes nothing, and tells what isn't current")
    is_check = parser.parse_args().check
    commands, calls, options, values = usage()
    made = {
        "share/man/man1/rumtsafi.1": man_page(commands, calls, options, values),
        "share/bash-completion/completions/rumtsafi": completions(commands, calls, options, values),
        **{name: document(text_of(name)) for name in DOCUMENTS},
    }
    stale = [name for name, text in made.items() if text_of(name) != text]
    if is_check:
        end([f"{name} isn't as docs/usage.txt and docs/faults.tsv have it: call {parser.prog}" for name in stale],
            f"{len(made)} files looked at")
    for name in stale:
        with open(os.path.join(TOP, name), "w", encoding="utf-8") as file:
            file.write(made[name])
        print(f"{name} made")


if __name__ == "__main__":
    main()
