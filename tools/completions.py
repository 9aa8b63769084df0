"""Make the completions of `hdt` for bash, zsh and fish, from the help that the program prints.

    python3 -m tools.completions            write completions/
    python3 -m tools.completions --check    check that these files are what would be written

This makes the lines between `# of the help:` and `# end`; the others are written by hand. An argument is completed by
its name: paths (`PATHS`) to file names, one with possible values to these, and others to nothing, as the values of
options. The program is that of the folder HDT_BUILT, else the one that belongs to the sources (tools/current).
"""

from __future__ import annotations

import re
import subprocess
import sys
from collections.abc import Callable
from typing import NamedTuple

from tools.repository import TOP, built, command_line, with_parts

# The arguments that are paths.
PATHS = {"FILE", "IN", "OUT", "PATHS"}
FOLDER = TOP / "completions"


class Argument(NamedTuple):
    """An argument: its name, its help, and the words that it may be, if these are few."""

    name: str
    help: str
    choices: list[str]

    @property
    def suffix(self) -> str:
        """The suffix of the files that are offered first; empty if it is no path."""
        return "" if self.name not in PATHS else "hdt" if "HDT" in self.help else "nt"


class Option(NamedTuple):
    """An option: its words, such as `-h` and `--help`; its help; and the name of its value, or nothing."""

    words: list[str]
    help: str
    value: str


class Command(NamedTuple):
    """A command: its name, which is empty for the program itself; its help, arguments and options."""

    name: str
    help: str
    arguments: list[Argument]
    options: list[Option]


# ---- the program's help


def printed(*words: str) -> str:
    """Return what the program prints with these words."""
    return subprocess.run([built() / "hdt", *words], check=True, stdout=subprocess.PIPE, text=True).stdout


def rows(text: str, title: str) -> list[tuple[str, str]]:
    """Return the rows below a title of a help text: what stands in the first column, and its help."""
    block = re.search(rf"^{title}:\n((?:  .*\n?)+)", text, re.M)
    return re.findall(r"^ +(\S+(?: \S+)*)(?: {2,}(.*))?$", block[1], re.M) if block else []


def argument(name: str, help: str) -> Argument:
    """Return an argument by its name in brackets and its help, from which default and possible values are taken."""
    choices = re.search(r"\[possible values: (.*?)\]", help)
    plain = re.sub(r" *(\[(default|possible values): .*?\]|\(see more with '--help'\))", "", help)
    return Argument(name.strip("<>[]."), plain, choices[1].split(", ") if choices else [])


def option(words: str, help: str) -> Option:
    """Return an option by its words, `-m, --most <N>`, and its help."""
    it = argument(words.partition(" <")[2], help)
    return Option(re.findall(r"(?<!\S)-[\w-]+", words), it.help, it.name)


def command(name: str, help: str) -> Command:
    """Return a command of the program, or by an empty name the program."""
    if name == "help":
        return Command(name, help, [Argument("COMMAND", "", [it for it, _ in rows(printed("-h"), "Commands")])], [])
    text = printed(*filter(None, [name]), "-h")
    arguments = [argument(*row) for row in rows(text, "Arguments")]
    return Command(name, help, arguments, [option(*row) for row in rows(text, "Options")])


def commands() -> list[Command]:
    """Return the program and its commands, in the order of the help."""
    return [command("", ""), *(command(*row) for row in rows(printed("-h"), "Commands"))]


# ---- what each shell is told: the parts of its file


def value_options(all_commands: list[Command]) -> list[str]:
    """Return the words of the options that take a value."""
    return list(dict.fromkeys(word for it in all_commands for o in it.options if o.value for word in o.words))


def long_words(it: Command) -> str:
    """Return the options of a command, each by its last and longest word."""
    return " ".join(option.words[-1] for option in it.options)


def bash(all_commands: list[Command]) -> list[str]:
    """Return the parts for bash. An argument is a suffix of files, words with | between, or | for nothing."""
    first, *others = all_commands
    cases = ""
    for it in others:
        arguments = " ".join(f".{arg.suffix}" if arg.suffix else "|".join(arg.choices) or "|" for arg in it.arguments)
        cases += f'    {it.name}) options="{long_words(it)}" arguments="{arguments}" ;;\n'
    offered = f"{' '.join(it.name for it in others)} {long_words(first)}"
    return [f'    commands="{offered}"\n', cases, f'        {" | ".join(value_options(all_commands))}) skip="=" ;;\n']


def zsh_word(text: str) -> str:
    """Return a word in single quotes."""
    return "'" + text.replace("'", r"'\''") + "'"


def zsh_option(it: Option) -> list[str]:
    """Return the specifications of an option for `_arguments`."""
    help = re.sub(r"([\[\]:\\])", r"\\\1", it.help)
    equals, value = ("=", f":{it.value}: ") if it.value else ("", "")
    return [zsh_word(f"({' '.join(it.words)}){word}{equals}[{help}]{value}") for word in it.words]


def zsh(all_commands: list[Command]) -> list[str]:
    """Return the parts for zsh."""
    first, *others = all_commands
    cases = ""
    for it in others:
        words = [word for option in it.options for word in zsh_option(option)]
        for number, arg in enumerate(it.arguments, 1):
            offered = f"({' '.join(arg.choices)})" if arg.choices else " "
            words.append(zsh_word(f"{number}:{arg.name}:" + (f'_files -g "*.{arg.suffix}"' if arg.suffix else offered)))
        cases += f"{it.name})\n    _arguments -s " + " \\\n        ".join(words) + " ;;\n"
    names = "".join(f"    {zsh_word(f'{it.name}:{it.help}')}\n" for it in others)
    options = " ".join(word for option in first.options for word in zsh_option(option))
    return [names, f"    _arguments {options}\n", cases]


def fish_word(text: str) -> str:
    """Return a word in single quotes."""
    return "'" + text.replace("\\", "\\\\").replace("'", "\\'") + "'"


def fish_option(it: Option) -> str:
    """Return the arguments of `complete` for an option."""
    words = [f"-l {word[2:]}" if word.startswith("--") else f"-s {word[1:]}" for word in reversed(it.words)]
    return f"{' '.join(words)}{' -x' if it.value else ''} -d {fish_word(it.help)}"


def fish(all_commands: list[Command]) -> list[str]:
    """Return the parts for fish."""
    first, *others = all_commands
    lines = [f"-n '__hdt_command' -a {it.name} -d {fish_word(it.help)}" for it in others]
    lines += [f"-n '__hdt_command' {fish_option(option)}" for option in first.options]
    for it in others:
        lines += [f"-n '__hdt_command {it.name}' {fish_option(option)}" for option in it.options]
        for number, arg in enumerate(it.arguments, 1):
            offered = f"'(__fish_complete_suffix .{arg.suffix})'" if arg.suffix else fish_word(" ".join(arg.choices))
            if arg.suffix or arg.choices:
                lines.append(f"-n '__hdt_argument {it.name} {number}' -k -a {offered}")
    values = f"            case {' '.join(value_options(all_commands))}\n"
    return [values, "".join(f"complete -c hdt {line}\n" for line in lines)]


FILES: dict[str, Callable[[list[Command]], list[str]]] = {"hdt.bash": bash, "_hdt": zsh, "hdt.fish": fish}


def main() -> int:
    """Run the command line."""
    parser = command_line("completions", __doc__)
    parser.add_argument("--check", action="store_true", help="check the files and write nothing")
    check, found, different = parser.parse_args().check, commands(), False
    for name, parts_of in FILES.items():
        old = (FOLDER / name).read_text()
        new = with_parts(old, parts_of(found))
        if new == old:
            continue
        different = True
        print(f"completions/{name} {'differs from the help: python3 -m tools.completions' if check else 'is written'}")
        if not check:
            (FOLDER / name).write_text(new)
    return int(check and different)


if __name__ == "__main__":
    sys.exit(main())
