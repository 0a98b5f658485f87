"""Completions of the program's words for bash, zsh and fish. A file is one that ends in .toml, or a folder on the way to it."""


def quoted(text):
    """A word of a shell, in single quotes."""
    return "'" + text.replace("'", "'\\''") + "'"


# ---- bash

BASH = """# Completion of ringplay for bash.
_ringplay() {
    local word=${COMP_WORDS[COMP_CWORD]} before=${COMP_WORDS[COMP_CWORD - 1]} command= words= files= i
    for ((i = 1; i < COMP_CWORD; i++)); do
        case ${COMP_WORDS[i]} in
        COMMANDS) command=${COMP_WORDS[i]} && break ;;
        esac
    done
    case "$command $before" in
VALUES
    esac
    case $command in
WORDS
    *) words=ALL ;;
    esac
    mapfile -t COMPREPLY < <(
        compgen -W "$words" -- "$word"
        [ -n "$files" ] && [[ $word != -* ]] && compgen -f -X '!*.toml' -- "$word"
        [ -n "$files" ] && [[ $word != -* ]] && compgen -d -- "$word"
    )
}
complete -o filenames -F _ringplay ringplay
"""


def bash(usage):
    values, words = [], []
    for command in usage.commands:
        for option in command.options:
            if option.value:
                listed = quoted(" ".join(option.values))
                values.append(f"    '{command.name} {option.name}') mapfile -t COMPREPLY < <(compgen -W {listed} -- \"$word\") && return ;;")
        files = " files=1" if command.takes_file else ""
        words.append(f"    {command.name}) words={quoted(' '.join(command.words()))}{files} ;;")
    names = [command.name for command in usage.commands]
    text = BASH.replace("COMMANDS", " | ".join(names)).replace("VALUES", "\n".join(values)).replace("WORDS\n", "\n".join(words) + "\n")
    return text.replace("ALL", quoted(" ".join([*names, "help", *usage.whole.words()])))


# ---- zsh

ZSH = """#compdef ringplay
# Completion of ringplay for zsh.
local -a commands
local context state line
commands=(
COMMANDS
)
_arguments -C OPTIONS '1: :->command' '*:: :->rest'
case $state in
command) _describe command commands ;;
rest)
    case $line[1] in
WORDS
    esac
    ;;
esac
"""


def zsh_option(option):
    """A specification of _arguments: brackets and colons of a text are escaped."""
    text = option.text.replace("\\", "\\\\").replace("[", "\\[").replace("]", "\\]").replace(":", "\\:")
    value = f":{option.value}:({' '.join(option.values)})" if option.value else ""
    letter = [quoted(f"-{option.letter}[{text}]")] if option.letter else []
    return " ".join([*letter, quoted(f"{option.name}[{text}]{value}")])


def zsh(usage):
    described = lambda it: quoted(f"{it.name}:{it.about.replace(':', chr(92) + ':')}")
    commands = "\n".join(f"    {described(it)}" for it in usage.commands)
    words = []
    for command in usage.commands:
        specs = [zsh_option(option) for option in command.options] + (["':file:_files -g \"*.toml\"'"] if command.takes_file else [])
        words.append(f"    {command.name}) _arguments " + " \\\n        ".join(specs) + " ;;")
    options = " ".join(zsh_option(option) for option in usage.whole.options)
    return ZSH.replace("COMMANDS", commands).replace("OPTIONS", options).replace("WORDS", "\n".join(words))


# ---- fish

FISH = r"""# Completion of ringplay for fish.
function __ringplay_files
    __fish_complete_path (commandline -ct) | string match -r '^[^\t]*(?:\.toml|/)(?:\t.*)?$'
end"""


def fish_option(condition, option):
    letter = f" -s {option.letter}" if option.letter else ""
    value = (f" -x -a {quoted(' '.join(option.values))}" if option.values else " -x") if option.value else ""
    return f"complete -c ringplay -n {quoted(condition)}{letter} -l {option.name[2:]}{value} -d {quoted(option.text)}"


def fish(usage):
    lines = [FISH, "complete -c ringplay -f"]
    for command in usage.commands:
        lines.append(f"complete -c ringplay -n __fish_use_subcommand -a {command.name} -d {quoted(command.about)}")
    lines += [fish_option("__fish_use_subcommand", option) for option in usage.whole.options]
    for command in usage.commands:
        condition = f"__fish_seen_subcommand_from {command.name}"
        lines += [fish_option(condition, option) for option in command.options]
        if command.takes_file:
            lines.append(f"complete -c ringplay -n {quoted(condition)} -x -a '(__ringplay_files)'")
    return "\n".join(lines) + "\n"
