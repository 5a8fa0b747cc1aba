#!/usr/bin/env -S python3 -B
"""Writes a man page, and completions for bash, zsh and fish, from what the program's own help prints.

    dist/manual.py PROGRAM FOLDER VERSION DAY
"""

import pathlib
import re
import subprocess
import sys

OPTION = re.compile(r"^  (?:-(\w), |    )--([\w-]+)(?: <(\w+)>)? {2,}(.*)$", re.M)
ARGUMENT = re.compile(r"^  <(\w+)> {2,}(.*)$", re.M)
# Values that name a file, and the one that may be a file's name behind `@`.
FILES = {"NAME", "FILE", "TRACE"}
LIST = "LIST"


class Help:
    """What the help of a verb says: usage, arguments, options, and the text below them."""

    def __init__(self, verb, text):
        self.verb = verb
        self.about = text.split("\n")[0]
        self.usage = re.search(r"^Usage: \S+ (.*)$", text, re.M)[1]
        self.arguments = ARGUMENT.findall(text)
        self.options = OPTION.findall(text)
        self.rest = text.split("Print help\n", 1)[1].strip("\n")


def printed(program, *words):
    return subprocess.run([program, *words], stdout=subprocess.PIPE, text=True, check=True).stdout


def verbs_of(text):
    """The verbs of the program's help, each with what it does."""
    return re.findall(r"^  (\w+) {2,}(.*)$", text.split("Commands:\n")[1].split("\n\n")[0], re.M)


def roff(text):
    text = text.replace("\\", "\\e").replace("-", "\\-")
    return re.sub(r"^([.'])", r"\\&\1", text, flags=re.M)


def bold(text):
    """Roff, with what stands between backticks in bold."""
    return re.sub(r"`([^`]*)`", r"\\fB\1\\fR", roff(text))


def prose(text):
    """Roff of paragraphs: those that are indented as they stand, the others filled."""
    lines = []
    for paragraph in text.split("\n\n"):
        is_shown = all(line.startswith(" ") for line in paragraph.split("\n"))
        lines += [".PP", *([".nf", bold(paragraph), ".fi"] if is_shown else [bold(paragraph)])]
    return lines


def manual(whole, helps, version, day):
    lines = [f'.TH L4RUN 1 "{day}" "l4run {version}" "User Commands"', ".SH NAME"]
    lines += ["l4run \\- emulate the Ipc system call of the L4 kernel, version X.2", ".SH SYNOPSIS"]
    for it in helps:
        lines += [".B l4run", roff(it.usage), ".br"]
    lines += [".SH DESCRIPTION", roff(whole.split("\n")[0]) + "."]
    for it in helps:
        lines += [f'.SH "{it.verb.upper()}"', bold(it.about) + "."]
        for name, what in it.arguments:
            lines += [".TP", f"\\fI{name}\\fR", bold(what)]
        for short, name, value, what in it.options:
            flag = (f"\\fB\\-{short}\\fR, " if short else "") + f"\\fB{roff('--' + name)}\\fR"
            lines += [".TP", flag + (f" \\fI{value}\\fR" if value else ""), bold(what)]
        lines += prose(it.rest)
    lines += [".SH FILES", "The formats of texts, traces and reports: FORMATS.md, with this program's documentation."]
    return "\n".join(lines) + "\n"


def bash(verbs, helps):
    lines = [
        "_l4run() {",
        "    local word=${COMP_WORDS[COMP_CWORD]} before=${COMP_WORDS[COMP_CWORD-1]} verb=${COMP_WORDS[1]}",
        '    if [ "$COMP_CWORD" = 1 ]; then',
        f"""        COMPREPLY=($(compgen -W '{" ".join(verb for verb, _ in verbs)}' -- "$word"))""",
        "        return",
        "    fi",
        "    case $verb in",
    ]
    for it in helps:
        flags = " ".join(f"--{name}" for _, name, _, _ in it.options)
        takes_list = any(value == LIST for _, _, value, _ in it.options)
        values = "|".join(f"--{name}" for _, name, value, _ in it.options if value and value not in FILES)
        lines += [f"    {it.verb})"]
        behind = """if [[ $word == @* ]]; then COMPREPLY=($(compgen -P @ -f -- "${word#@}")); return; fi"""
        lines += [f"        {behind}"] if takes_list else []
        lines += [f"        case $before in {values}) return ;; esac"] if values else []
        lines += ["        if [[ $word == -* ]]; then", f"""            COMPREPLY=($(compgen -W '{flags}' -- "$word"))"""]
        lines += ["        else", "            compopt -o filenames", '            COMPREPLY=($(compgen -f -- "$word"))', "        fi", "        ;;"]
    names = " ".join(it.verb for it in helps)
    lines += [f"""    help) COMPREPLY=($(compgen -W '{names}' -- "$word")) ;;""", "    esac", "}", "complete -F _l4run l4run"]
    return "\n".join(lines) + "\n"


def in_zsh(text):
    """A text between single quotes and square brackets."""
    return text.replace("'", "").replace("[", "(").replace("]", ")").replace("`", "")


def in_fish(text):
    """A text between single quotes."""
    return text.replace("\\", "\\\\").replace("'", "\\'").replace("`", "")


def zsh(verbs, helps):
    listed = " ".join(f"'{verb}:{in_zsh(what)}'" for verb, what in verbs)
    lines = ["#compdef l4run", "local -a verbs", f"verbs=({listed})"]
    lines += ["if (( CURRENT == 2 )); then _describe command verbs; return; fi", "case $words[2] in"]
    for it in helps:
        words = []
        for _, name, value, what in it.options:
            names = "_files" if value in FILES else "{compset -P @ && _files}" if value == LIST else ""
            place = f":{value}:{names}" if value else ""
            words.append(f"'--{name}[{in_zsh(what)}]{place}'")
        words += [f"'{place}:{name}:_files'" for place, (name, _) in enumerate(it.arguments, 1)]
        lines += [f"{it.verb}) shift words; (( CURRENT-- )); _arguments {' '.join(words)} ;;"]
    lines += [f"help) _values command {' '.join(it.verb for it in helps)} ;;", "esac"]
    return "\n".join(lines) + "\n"


def fish(verbs, helps):
    # What stands behind `@` is completed as the name of a file is.
    behind = """string match -q '@*' -- $word; and __fish_complete_path (string sub -s 2 -- $word) | string replace -r '^' '@'"""
    lines = ["function __l4run_list", "    set -l word (commandline -ct)", f"    {behind}", "end", "complete -c l4run -f"]
    lines += [f"complete -c l4run -n __fish_use_subcommand -a {verb} -d '{in_fish(what)}'" for verb, what in verbs]
    for it in helps:
        seen = f"complete -c l4run -n '__fish_seen_subcommand_from {it.verb}'"
        for short, name, value, what in it.options:
            flag = f" -s {short}" if short else ""
            takes = (" -r" if value else "") + (" -F" if value in FILES else " -a '(__l4run_list)'" if value == LIST else "")
            lines.append(f"{seen} -l {name}{flag}{takes} -d '{in_fish(what)}'")
        lines.append(f"{seen} -F")
    names = " ".join(it.verb for it in helps)
    lines.append(f"complete -c l4run -n '__fish_seen_subcommand_from help; and not __fish_seen_subcommand_from {names}' -a '{names}'")
    return "\n".join(lines) + "\n"


def main(program, folder, version, day):
    out = pathlib.Path(folder)
    out.mkdir(parents=True, exist_ok=True)
    whole = printed(program, "help")
    verbs = verbs_of(whole)
    helps = [Help(verb, printed(program, "help", verb)) for verb, _ in verbs if verb != "help"]
    (out / "l4run.1").write_text(manual(whole, helps, version, day))
    (out / "l4run.bash").write_text(bash(verbs, helps))
    (out / "_l4run").write_text(zsh(verbs, helps))
    (out / "l4run.fish").write_text(fish(verbs, helps))


if __name__ == "__main__":
    main(*sys.argv[1:])
