#!/usr/bin/env python3
"""Writes the completion for bash, zsh and fish into packaging/completion, from the parsers of the tools and the help of the program:

    python3 tools/completion.py [--program FILE] [--check]

--check writes nothing: its status is 1 if a file there is another one than would be written. What is written is kept in the repository,
so that `make install` runs no program of another processor.
"""
from __future__ import annotations

import argparse
import re
import subprocess
import sys
from pathlib import Path
from typing import Any, Iterator, NamedTuple, NoReturn

TOP = Path(__file__).resolve().parent.parent
sys.path[:0] = [str(TOP / "tools" / "installed")]
from cmsproof_tools import archive_words, due, evidence, extract, renew, report, running, stamp, trust, verify  # noqa: E402

FOLDER = TOP / "packaging" / "completion"
MADE = "made by tools/completion.py of the parsers of the tools and the help of the program"
# what a value is, by the name that a help has for it; a name that is not here is a fault
FILES = set("A ANSWERS B CONTENT DIR FILE FOLDER LIST NEW OLD OUT QUESTIONS RECORD REQUEST RESPONSE STATE TOKEN TRUST ZIP".split())
WORDS = set("ADDRESS ALG=TIME HEX KIND N NAME OID PART SHA256 SUFFIX=ENDING TIME URL VERDICT".split())
# the tools, and the first words of one that stand for other parsers
TOOLS = {"archive": archive_words, "extract": extract, "trust": trust, "verify": verify}
SUBTOOLS = {"report": report, "evidence": evidence, "due": due, "stamp": stamp, "renew": renew}


class Option(NamedTuple):
    """An option: its name, what a reader is told of it, the names of its values, and what they can be if that is known."""

    name: str
    about: str
    values: tuple[str, ...] = ()
    choices: tuple[str, ...] = ()
    several: bool = False

    @property
    def takes_files(self) -> bool:
        """Whether its values are names of files."""
        return bool(self.values) and not self.choices and kind_of(self.values[0]) == "file"


class Command(NamedTuple):
    """What has options: its words, as `cmsproof check`, its options, what its first other word can be, if that is known, whether
    names of files can follow, and whether they can stand in the place of that first word."""

    words: tuple[str, ...]
    about: str
    options: tuple[Option, ...]
    first: tuple[tuple[str, str], ...] = ()
    takes_files: bool = True
    or_files: bool = False


def kind_of(value: str) -> str:
    """What a value of this name is. Ends the script where nobody said so."""
    if value not in FILES | WORDS:
        sys.exit(f"completion: what is {value}? Add it to FILES or to WORDS of tools/completion.py")
    return "file" if value in FILES else "word"


def brief(text: str) -> str:
    """The beginning of a help, for one line."""
    text = re.split(r" \[| \(|; |, as | \(by default|: ", " ".join(text.split()))[0].rstrip(".,")
    return text[0].upper() + text[1:] if text else ""


# ---- the program


def shown(program: Path, *words: str) -> str:
    """A help of the program."""
    return subprocess.run([program, *words, "--help"], capture_output=True, text=True, check=True).stdout


def choices_in(text: str) -> tuple[str, ...]:
    """The values that a line of a help names as possible."""
    found = re.search(r"\[possible values: (.*?)\]", text)
    return tuple(found[1].split(", ")) if found else ()


def options_in(text: str) -> Iterator[Option]:
    """The options in a help of the program, each on one line."""
    for name, value, about in re.findall(r"^ +(?:-\w, +)?(--[a-z0-9-]+)(?: <([A-Z0-9=]+)>)?  +(\S.*)$", text, re.M):
        yield Option(name, brief(about), (value,) if value else (), choices_in(about))


def commands_in(text: str) -> list[tuple[str, str]]:
    """The commands in the help of the program, and what they do."""
    block = re.search(r"^Commands:\n((?: .*\n)+)", text, re.M)
    return [(name, brief(about)) for name, about in re.findall(r"^  (\w+) +(.*)$", block[1] if block else "", re.M)]


def of_program(program: Path) -> Iterator[Command]:
    """The program and its commands."""
    commands = commands_in(shown(program))
    yield Command(("cmsproof",), "", tuple(options_in(shown(program))), tuple(commands), False)
    for name, about in commands:
        if name == "help":
            others = tuple(pair for pair in commands if pair[0] != "help")
            yield Command(("cmsproof", "help"), about, (), (*others, ("help", about)), False)
        else:
            yield of_command(program, name, about)


def of_command(program: Path, name: str, about: str) -> Command:
    """A command of the program. One that stands before others, as `stamp`, has the options of all of them."""
    text = shown(program, name)
    others = [pair for pair in commands_in(text) if pair[0] != "help"]
    if others:
        options = {one.name: one for other, _ in others for one in options_in(shown(program, name, other))}
        return Command(("cmsproof", name), about, tuple(options.values()), tuple(others))
    first = re.search(r"^Arguments:\n  <(\w+)> +(.*)$", text, re.M)
    values = choices_in(first[2]) if first else ()
    return Command(("cmsproof", name), about, tuple(options_in(text)), tuple((value, "") for value in values))


# ---- the tools


class Caught(Exception):
    """Has the parser of a tool, which would have read its words."""


def parser_of(module: Any, tool: str) -> argparse.ArgumentParser:
    """The parser by which a tool reads its words."""

    def caught(parser: argparse.ArgumentParser, *_: object) -> NoReturn:
        raise Caught(parser)

    kept = running.Words.parse_args
    running.Words.parse_args = caught  # type: ignore[method-assign,assignment]
    try:
        module.main(tool, [])
    except Caught as found:
        parser: argparse.ArgumentParser = found.args[0]
        return parser
    finally:
        running.Words.parse_args = kept  # type: ignore[method-assign]
    raise SystemExit(f"completion: {tool} has no parser")


def option_of(action: argparse.Action) -> Option:
    """An option of a parser, by its long name."""
    metavar = action.metavar or action.dest.upper()
    values = () if action.nargs == 0 else (metavar,) if isinstance(metavar, str) else tuple(metavar)
    name = next(name for name in action.option_strings if name.startswith("--"))
    return Option(name, brief(action.help or ""), values, tuple(action.choices or ()), action.nargs == "+")


def of_tool(module: Any, words: tuple[str, ...], first: tuple[tuple[str, str], ...] = ()) -> Command:
    """A tool, or what one does at a first word."""
    parser = parser_of(module, " ".join(words))
    actions = [action for action in parser._actions if action.help != argparse.SUPPRESS]
    options = tuple(option_of(action) for action in actions if action.option_strings)
    for action in actions:
        if not action.option_strings:
            kind_of(str(action.metavar))
    about = re.split(r"\.(?:\s|$)", parser.description or "")[0]
    return Command(words, brief(about), options, first, or_files=bool(first))


def of_tools() -> Iterator[Command]:
    """The tools, and the words of cmsproof-archive that stand for others."""
    others = [of_tool(module, ("cmsproof-archive", name)) for name, module in SUBTOOLS.items()]
    for name, module in TOOLS.items():
        first = tuple((command.words[1], command.about) for command in others) if name == "archive" else ()
        yield of_tool(module, (f"cmsproof-{name}",), first)
    yield from others


# ---- bash


def bash(commands: list[Command]) -> str:
    """The completion for bash."""
    options, values, firsts, words = [], [], [], []
    for command in commands:
        place = " ".join(command.words)
        if len(command.words) == 2:
            words.append(f"    '{place}') place=$tool\\ ${{COMP_WORDS[1]}} ;;")
        options.append(f"    '{place}') echo '{' '.join(option.name for option in command.options)}' ;;")
        if command.first:
            firsts.append(f"    '{place}') echo '{' '.join(name for name, _ in command.first)}' ;;")
        for option in command.options:
            if option.values and not option.takes_files:
                values.append(f"    '{place} {option.name}') echo '{' '.join(option.choices)}' ;;")
            elif option.values:
                values.append(f"    '{place} {option.name}') echo files ;;")
    names = " ".join(dict.fromkeys(command.words[0] for command in commands))
    parts = {"options": options, "values": values, "firsts": firsts, "words": words}
    text = (TOP / "packaging" / "completion.bash.in").read_text()
    for name, lines in parts.items():
        text = text.replace(f"@{name}@", "\n".join(lines))
    return text.replace("@made@", MADE).replace("@names@", names)


# ---- zsh


def quoted(text: str) -> str:
    """A text between apostrophes, for zsh and for fish as they both read it here: there is no apostrophe in it."""
    return text.replace("\\", "").replace("'", "’")


def zsh_spec(option: Option) -> str:
    """An option, as _arguments reads it."""
    about = re.sub(r"([\[\]:])", r"\\\1", quoted(option.about))
    spec = f"{option.name}[{about}]"
    does = f"({' '.join(option.choices)})" if option.choices else "_files" if option.takes_files else " "
    if option.several:
        return f"'*{spec}:*-*:{option.values[0]}:{does}'"
    return "'*" + spec + "".join(f":{value}:{does}" for value in option.values) + "'"


def zsh_words(pairs: tuple[tuple[str, str], ...]) -> str:
    """Words with what a reader is told of them, as _arguments and _alternative read them."""
    about = (re.sub(r'([":`$])', r"\\\1", quoted(about)) for _, about in pairs)
    return "((" + " ".join(f'{name}\\:"{text}"' if text else name for (name, _), text in zip(pairs, about)) + "))"


def zsh_case(command: Command) -> str:
    """A command, as a case of the function."""
    specs = [zsh_spec(option) for option in command.options]
    if command.first and command.or_files:
        specs.append("'1:file:_cmsproof_first'")
    elif command.first:
        specs.append(f"'1:word:{zsh_words(command.first)}'")
    if command.takes_files:
        specs.append("'*:file:_files'")
    return (
        f"    '{' '.join(command.words)}')\n        _arguments -S \\\n            "
        + " \\\n            ".join(specs)
        + "\n        ;;"
    )


def zsh(commands: list[Command]) -> str:
    """The completion for zsh."""
    text = (TOP / "packaging" / "completion.zsh.in").read_text()
    names = " ".join(dict.fromkeys(command.words[0] for command in commands))
    places = " | ".join(f"'{' '.join(command.words)}'" for command in commands if len(command.words) == 2)
    parts = {"@made@": MADE, "@names@": names, "@places@": places, "@cases@": "\n".join(map(zsh_case, commands))}
    parts["@first@"] = next(zsh_words(command.first) for command in commands if command.first and command.or_files)
    for name, part in parts.items():
        text = text.replace(name, part)
    return text


# ---- fish


def fish_option(command: Command, option: Option) -> str:
    """A line for an option."""
    takes = " -r -F" if option.takes_files else " -x" if option.values else ""
    if option.choices:
        takes += f" -a '{' '.join(option.choices)}'"
    return f"{fish_head(command)} -l {option.name[2:]}{takes} -d '{quoted(option.about)}'"


def fish_head(command: Command, at_first: bool = False) -> str:
    """The beginning of a line for fish: the command, and the words before."""
    tool, *word = command.words
    first = " 1" if at_first else ""
    return f"complete -c {tool} -n '__{tool.replace('-', '_')}_at{first} {word[0] if word else '-'}'"


def fish(commands: list[Command]) -> str:
    """The completion for fish of one tool and what its first words stand for."""
    tool = commands[0].words[0]
    text = (TOP / "packaging" / "completion.fish.in").read_text()
    known = " ".join(command.words[1] for command in commands if len(command.words) == 2)
    lines = []
    for command in commands:
        if not command.takes_files or (command.first and not command.or_files):
            lines.append(f"{fish_head(command, command.takes_files)} -f")
        for name, about in command.first:
            lines.append(f"{fish_head(command, True)} -a {name}" + (f" -d '{quoted(about)}'" if about else ""))
        lines += [fish_option(command, option) for option in command.options]
    parts = {
        "@made@": MADE,
        "@tool@": tool,
        "@function@": tool.replace("-", "_"),
        "@known@": known,
        "@lines@": "\n".join(lines),
    }
    for name, part in parts.items():
        text = text.replace(name, part)
    return text


def texts(program: Path) -> dict[str, str]:
    """The files by their names."""
    commands = [*of_program(program), *of_tools()]
    found = {"cmsproof.bash": bash(commands), "_cmsproof": zsh(commands)}
    for tool in dict.fromkeys(command.words[0] for command in commands):
        found[f"{tool}.fish"] = fish([command for command in commands if command.words[0] == tool])
    return found


def main() -> int:
    """Reads the words, and writes or compares."""
    parser = argparse.ArgumentParser()
    parser.add_argument("--program", default=TOP / "cmsproof", type=Path)
    parser.add_argument("--check", action="store_true")
    given = parser.parse_args()
    made = texts(given.program.resolve())
    there = {path.name: path.read_text() for path in FOLDER.iterdir()} if FOLDER.is_dir() else {}
    if given.check:
        differ = sorted(name for name in {*made, *there} if made.get(name) != there.get(name))
        for name in differ:
            print(f"packaging/completion/{name} is another one than tools/completion.py makes: run it")
        return 1 if differ else 0
    for name, text in made.items():
        (FOLDER / name).write_text(text)
    return 0


if __name__ == "__main__":
    sys.exit(main())
