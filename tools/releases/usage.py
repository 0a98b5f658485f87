"""The commands and options of the program, as its help texts say them."""

import dataclasses
import re
import subprocess

OPTION = re.compile(r" +(?:-(\w), )?--([\w-]+)(?: <([\w ]+)>)? {2,}(.*)")
ARGUMENT = re.compile(r" +([<[]\w+[>\]]) {2,}(.*)")
COMMAND = re.compile(r"  (\w+) {2,}(.*)")
VALUES = re.compile(r" *\[possible values: ([^]]*)\]")


@dataclasses.dataclass
class Option:
    letter: str
    name: str
    value: str
    text: str
    values: list[str]

    @classmethod
    def of(cls, line):
        letter, name, value, text = OPTION.fullmatch(line).groups()
        listed = VALUES.search(text)
        return cls(letter or "", f"--{name}", value or "", text, listed[1].split(", ") if listed else [])


@dataclasses.dataclass
class Command:
    name: str
    about: str
    usage: str
    arguments: list[tuple[str, str]]
    options: list[Option]
    example: str

    @property
    def takes_file(self):
        return any("FILE" in name for name, _ in self.arguments)

    def words(self):
        """Its options, and their letters."""
        return [word for it in self.options for word in (it.name, f"-{it.letter}" if it.letter else "") if word]


@dataclasses.dataclass
class Usage:
    version: str
    whole: Command
    commands: list[Command]


def help_text(program, *words):
    done = subprocess.run([program, *words], capture_output=True, text=True)
    return done.stdout + done.stderr


def command_of(name, text):
    """A help text: what it is for, then sections under a line that ends with a colon."""
    head, *rest = re.split(r"^(Usage|Arguments|Options|Commands|Example): *\n?", text, flags=re.M)
    parts = {title: body.strip("\n") for title, body in zip(rest[::2], rest[1::2])}
    lines = lambda title: [line for line in parts.get(title, "").splitlines() if line.strip()]
    arguments = [ARGUMENT.fullmatch(line).groups() for line in lines("Arguments")]
    options = [Option.of(line) for line in lines("Options")]
    return Command(name, head.strip(), parts["Usage"].strip(), arguments, options, parts.get("Example", "").strip())


def read_usage(program):
    text = help_text(program, "--help")
    names = [COMMAND.fullmatch(line)[1] for line in re.search(r"Commands:\n(.*?)\n\n", text, re.S)[1].splitlines()]
    commands = [command_of(name, help_text(program, name, "--help")) for name in names if name != "help"]
    return Usage(help_text(program, "--version").strip(), command_of("", text), commands)
