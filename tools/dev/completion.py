#!/usr/bin/env python3
"""Prints the completion for a shell: tools/dev/completion.py bash, or tools/dev/completion.py zsh."""
import argparse
import importlib
import os
import sys
from typing import Iterator, NamedTuple, Sequence

sys.path.insert(0, os.path.dirname(os.path.dirname(os.path.abspath(__file__))))
from groute.options import TEXTS, TOOLS, chosen, rows  # noqa: E402

BASH = """# Completion of groute, grbound and the tools for bash, as tools/dev/completion.py writes it.
_groute() {
    local word=${COMP_WORDS[COMP_CWORD]} before=${COMP_WORDS[COMP_CWORD - 1]} command=${COMP_WORDS[0]##*/}
    local options= values=
    if [ "$word" = = ]; then
        word=
    elif [ "$before" = = ]; then
        before=${COMP_WORDS[COMP_CWORD - 2]}
    fi
    if [ "$command" = groute ] && [ "$COMP_CWORD" -eq 1 ]; then
        [[ $word == -* ]] && values="--help --version" || values="%s"
        COMPREPLY=($(compgen -W "$values" -- "$word"))
        return
    fi
    [ "$command" != groute ] || command="groute ${COMP_WORDS[1]}"
    case $command in
%s
    esac
    case "$command $before" in
%s
    esac
    if [ -n "$values" ]; then
        COMPREPLY=($(compgen -W "$values" -- "$word"))
    elif [[ $word == -* ]]; then
        COMPREPLY=($(compgen -W "$options" -- "$word"))
    else
        mapfile -t COMPREPLY < <(compgen -f -- "$word")
    fi
}
complete -o filenames -F _groute %s
"""
ZSH = """#compdef %s
# Completion of groute, grbound and the tools for zsh, as tools/dev/completion.py writes it.
local -a commands
case ${service:-groute} in
%s
*)
    commands=(
%s
    )
    if (( CURRENT == 2 )); then
        _describe command commands
        return
    fi
    case $words[2] in
%s
    esac
    ;;
esac
"""


class Called(NamedTuple):
    """What is called: its name, its positionals, and its options, each with a value's name and the words for it."""
    name: str
    positionals: list[str]
    options: list[tuple[str, str, list[str]]]


def commands(program: str = "groute") -> Iterator[Called]:
    """The commands of a program."""
    for row in rows(program):
        options = [(word, value, chosen(value)) for word, value in row.options]
        for word in ("--help",) if row.word else ("--help", "--version"):
            options.append((word, "", []))
        yield Called(row.name(), row.positionals, options)


def programs() -> Iterator[Called]:
    """grbound and the tools."""
    yield from commands("grbound")
    for tool in TOOLS:
        parser = importlib.import_module(f"groute.commands.{tool}").parser()
        yield Called(f"groute-{tool.replace('_', '-')}", *read(parser))


def read(parser: argparse.ArgumentParser) -> tuple[list[str], list[tuple[str, str, list[str]]]]:
    """The positionals and options of a parser."""
    positionals, options = [], []
    for action in parser._actions:
        value = action.metavar if isinstance(action.metavar, str) else "" if action.nargs == 0 else action.dest
        if action.option_strings:
            options.append((action.option_strings[-1], value, list(map(str, action.choices or []))))
        else:
            positionals.append(value)
    return positionals, options


def bash() -> str:
    """The completion for bash."""
    every = [*commands(), *programs()]
    options = "\n".join(f"    {quoted(called.name)}) options=\"{' '.join(option[0] for option in called.options)}\" ;;"
                        for called in every)
    values = "\n".join(f"    '{called.name} {option}') values=\"{' '.join(words)}\" ;;"
                       for called in every for option, _, words in called.options if words)
    names = " ".join(["groute", *(called.name for called in programs())])
    return BASH % (" ".join(row.word for row in rows()), options, values, names)


def quoted(name: str) -> str:
    """A name of two words as one."""
    return f"'{name}'" if " " in name else name


def zsh() -> str:
    """The completion for zsh."""
    names = " ".join(["groute", *(called.name for called in programs())])
    tools = "\n".join(f"{called.name}) _arguments {arguments(called, 1)} ;;" for called in programs())
    does = "\n".join(f"        '{row.word}:{row.does}'" for row in rows())
    cases = "\n".join(f"    {called.name.split()[1]}) _arguments {arguments(called, 2)} ;;" for called in commands())
    return ZSH % (names, tools, does, cases)


def arguments(called: Called, first: int) -> str:
    """The words of `_arguments`."""
    parts = [f"'{option}[{value}]:{value}:({' '.join(words)})'" if words else f"'{option}[{value}]:{value}:_files'"
             if value in (*TEXTS, *FILES) else f"'{option}[{value}]:{value}:'" if value else f"'{option}'"
             for option, value, words in called.options]
    parts += [f"'{at}:{name}:{'_files' if name in (*TEXTS, *FILES) else ''}'"
              for at, name in enumerate(called.positionals, first)]
    return " ".join(parts)


# Words for files, beside those of groute's commands.
FILES = ("FILE", "DEF", "LEF", "PLACED.def", "ROUTES", "GUIDES", "LIBERTY", "REPORT", "BOUNDS", "PANELS", "TEXT",
         "PATH", "DIR", "OLD_DESIGN", "NEW_DESIGN", "BEFORE", "AFTER")


def main(words: Sequence[str]) -> int:
    """Prints a completion. The answer is the status."""
    made = {"bash": bash, "zsh": zsh}
    if len(words) != 1 or words[0] not in made:
        print((__doc__ or "").strip())
        return 0 if words in (["-h"], ["--help"]) else 2
    sys.stdout.write(made[words[0]]())
    return 0


if __name__ == "__main__":
    sys.exit(main(sys.argv[1:]))
