"""Completions of the programs' words for bash, zsh and fish, made from their help texts.

So the words that a shell offers are those of the program that is installed. A value of an option with
possible values is one of them. A value `F` is a file, `DIR` a folder; any other value is free.
"""

import dataclasses
import re
import subprocess

SUBCOMMAND = re.compile(r"^  (\w+) +(\S.*)$", re.M)
OPTION = re.compile(r"^ +(?:(-\w), )?--(\w[\w-]*)(?: <(\w+)>)? +(\S.*)$", re.M)
POSSIBLE = re.compile(r" *\[possible values: ([^\]]*)\]")
DEFAULT = re.compile(r" *\[default: [^\]]*\]")
FOLDERS = re.compile(r"^  [\[<]DIR[\]>]", re.M)


@dataclasses.dataclass(frozen=True)
class Option:
    """An option: its short and long form, what its value is called, what it is for, and possible values."""

    short: str
    long: str
    value: str
    about: str
    possible: tuple


@dataclasses.dataclass(frozen=True)
class Words:
    """The words of a program or of one of its subcommands."""

    name: str
    about: str
    options: tuple
    # Whether folders may follow.
    takes_folders: bool
    subcommands: tuple = ()


def help_of(program, *words):
    """The help text of a program."""
    return subprocess.run([program, *words], check=True, capture_output=True, text=True).stdout


def section(text, title):
    """The lines of a section of a help text."""
    found = re.search(rf"^{title}:\n((?:  .*\n?)*)", text, re.M)
    return found[1] if found else ""


def words_in(name, text):
    """The words that a help text has, without those of subcommands."""
    options = []
    for short, long, value, about in OPTION.findall(section(text, "Options")):
        possible = POSSIBLE.search(about)
        plain = DEFAULT.sub("", POSSIBLE.sub("", about))
        options.append(Option(short, long, value, plain, tuple(possible[1].split(", ")) if possible else ()))
    if not options:
        raise ValueError(f"the help text of {name} has no options, as tools/shared/completions.py reads it")
    return Words(name, text.split("\n", 1)[0], tuple(options), bool(FOLDERS.search(text)))


def words_of(name, program):
    """The words of a program, with those of its subcommands."""
    text = help_of(program, "--help")
    names = [it for it, _ in SUBCOMMAND.findall(section(text, "Commands")) if it != "help"]
    subcommands = tuple(words_in(it, help_of(program, "help", it)) for it in names)
    return dataclasses.replace(words_in(name, text), subcommands=subcommands)


def flags_of(words):
    return [flag for it in words.options for flag in (it.short, f"--{it.long}") if flag]


# bash

# (a name of a file may have spaces)
BASH_PATHS = 'compopt -o filenames; mapfile -t COMPREPLY < <(compgen %s -- "$word")'
BASH_VALUE = {"F": BASH_PATHS % "-f"}
BASH_FOLDERS = BASH_PATHS % "-d"


def bash_cases(words, indent):
    """What completes a word of a program or a subcommand, by the word before it."""
    lines = ['case "$before" in']
    for it in words.options:
        if it.possible:
            reply = f'COMPREPLY=($(compgen -W "{" ".join(it.possible)}" -- "$word"))'
        else:
            reply = BASH_VALUE.get(it.value, "COMPREPLY=()")
        if it.value:
            lines.append(f"--{it.long}) {reply}; return ;;")
    lines += ["esac", 'if [[ "$word" == -* ]]; then']
    lines += [f'    COMPREPLY=($(compgen -W "{" ".join(flags_of(words))}" -- "$word"))']
    lines += ["else", f"    {BASH_FOLDERS if words.takes_folders else 'COMPREPLY=()'}", "fi"]
    return "".join(f"{indent}{line}\n" for line in lines)


def bash(words):
    """The completions for bash."""
    text = f"# {words.name}: completions for bash\n_{words.name}() {{\n"
    text += '    local word="${COMP_WORDS[COMP_CWORD]}" before="${COMP_WORDS[COMP_CWORD - 1]}"\n'
    if not words.subcommands:
        return f"{text}{bash_cases(words, '    ')}}}\ncomplete -F _{words.name} {words.name}\n"
    names = " ".join(it.name for it in words.subcommands)
    offered = " ".join([names, "help", *flags_of(words)])
    text += "    if [ \"$COMP_CWORD\" -eq 1 ]; then\n"
    text += f'        COMPREPLY=($(compgen -W "{offered}" -- "$word"))\n        return\n    fi\n'
    text += '    case "${COMP_WORDS[1]}" in\n'
    text += f'    help) COMPREPLY=($(compgen -W "{names}" -- "$word")) ;;\n'
    for it in words.subcommands:
        text += f"    {it.name})\n{bash_cases(it, '        ')}        ;;\n"
    return f"{text}    esac\n}}\ncomplete -F _{words.name} {words.name}\n"


# zsh


def quoted(text):
    """A text in single quotes, as zsh and fish read them."""
    return text.replace("'", "'\\''")


def zsh_arguments(words, indent):
    """The call that completes the words of a program or a subcommand."""
    lines = ["_arguments \\"]
    for it in words.options:
        about = quoted(re.sub(r"([\[\]:])", r"\\\1", it.about))
        value = ""
        if it.value:
            way = f"({' '.join(it.possible)})" if it.possible else "_files" if it.value == "F" else ""
            value = f":{it.value}:{way}"
        # (lints are named by an option each)
        flag = f"'*--{it.long}" if it.value == "NAME" else f"'--{it.long}"
        flag = f"'({it.short} --{it.long})'{{{it.short},--{it.long}}}'" if it.short else flag
        lines.append(f"    {flag}[{about}]{value}' \\")
    lines.append("    '*:folder:_files -/'" if words.takes_folders else "    '*:word:'")
    return "".join(f"{indent}{line}\n" for line in lines)


def zsh(words):
    """The completions for zsh."""
    text = f"#compdef {words.name}\n# {words.name}: completions for zsh\n_{words.name}() {{\n"
    if not words.subcommands:
        return f'{text}{zsh_arguments(words, "    ")}}}\n_{words.name} "$@"\n'
    text += "    if (( CURRENT == 2 )); then\n        local -a commands\n        commands=(\n"
    for it in words.subcommands:
        text += f"            '{it.name}:{quoted(it.about)}'\n"
    text += "            'help:Prints the options of a command.'\n        )\n"
    text += "        _describe 'command' commands\n        return\n    fi\n"
    names = " ".join(it.name for it in words.subcommands)
    text += "    local command=$words[2]\n    shift words\n    (( CURRENT-- ))\n    case $command in\n"
    text += f"    help) _arguments '1:command:({names})' ;;\n"
    for it in words.subcommands:
        text += f"    {it.name})\n{zsh_arguments(it, '        ')}        ;;\n"
    return f'{text}    esac\n}}\n_{words.name} "$@"\n'


# fish


def fish_lines(name, words, condition):
    """The lines for the options of a program or a subcommand."""
    for it in words.options:
        parts = [f"complete -c {name}{condition} -l {it.long}"]
        parts += [f"-s {it.short[1:]}"] if it.short else []
        if it.possible:
            parts.append(f"-x -a '{' '.join(it.possible)}'")
        elif it.value:
            parts.append("-r -F" if it.value == "F" else "-x")
        yield " ".join([*parts, f"-d '{quoted(it.about)}'"])
    if words.takes_folders:
        yield f"complete -c {name}{condition} -a '(__fish_complete_directories)'"


def fish(words):
    """The completions for fish."""
    name, names = words.name, " ".join(it.name for it in words.subcommands)
    lines = [f"# {name}: completions for fish", f"complete -c {name} -f"]
    if not words.subcommands:
        return "\n".join([*lines, *fish_lines(name, words, "")]) + "\n"
    first = " -n __fish_use_subcommand"
    for it in words.subcommands:
        lines.append(f"complete -c {name}{first} -a {it.name} -d '{quoted(it.about)}'")
    lines.append(f"complete -c {name}{first} -a help -d 'Prints the options of a command.'")
    lines.append(f"complete -c {name} -n '__fish_seen_subcommand_from help' -a '{names}'")
    for it in words.subcommands:
        lines += fish_lines(name, it, f" -n '__fish_seen_subcommand_from {it.name}'")
    return "\n".join(lines) + "\n"


TEXTS = {"bash": bash, "zsh": zsh, "fish": fish}
