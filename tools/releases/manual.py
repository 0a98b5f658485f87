"""The manual page of the program, in the macros of man(7)."""

import re


def escaped(text):
    """Text that no macro is in."""
    text = text.replace("\\", r"\e").replace("-", r"\-")
    return re.sub(r"^([.'])", r"\\&\1", text, flags=re.M)


def option_lines(option):
    names = ", ".join(filter(None, [f"-{option.letter}" if option.letter else "", option.name]))
    value = f" \\fI{escaped(option.value)}\\fR" if option.value else ""
    return [".TP", f"\\fB{escaped(names)}\\fR{value}", escaped(option.text)]


def command_lines(command):
    lines = [f".SS {command.name}", escaped(command.about) + ".", ".PP", f"\\fB{escaped(command.usage)}\\fR"]
    for name, text in command.arguments:
        lines += [".TP", f"\\fI{escaped(name)}\\fR", escaped(text)]
    for option in command.options:
        lines += option_lines(option)
    return lines + [".PP", "Example:", ".PP", ".EX", escaped(command.example), ".EE"]


def statuses(protocol):
    """The exit statuses, of the table in docs/PROTOCOL.md."""
    table = re.search(r"^Exit status \| Meaning\n---\|---\n((?:.*\|.*\n)+)", protocol, re.M)[1]
    rows = [line.split(" | ", 1) for line in table.splitlines()]
    return [line for status, text in rows if status != "70" for line in (".TP", status, escaped(text.replace("`", "")))]


def manual(usage, protocol):
    name, version = usage.version.split()
    lines = [f'.TH {name.upper()} 1 "" "{name} {version}" "User Commands"', ".SH NAME", f"{name} \\- {escaped(usage.whole.about)}"]
    lines += [".SH SYNOPSIS"]
    for command in usage.commands:
        lines += [f"\\fB{escaped(command.usage)}\\fR", ".br"]
    lines[-1:] = [".SH COMMANDS"]
    for command in usage.commands:
        lines += command_lines(command)
    lines.append(".SH OPTIONS")
    for option in usage.whole.options:
        lines += option_lines(option)
    lines += [".SH EXIT STATUS", *statuses(protocol), ".SH FILES", "A scenario file is TOML; docs/PROTOCOL.md of the release has its keys, and examples/ has some."]
    return "\n".join(lines) + "\n"
