"""The completions of shells, and the man page, made from the reader of the words."""
import argparse
from collections.abc import Iterator

MODES = {
    "--model": ("ev", "psv", "gsv", "wv"),
    "--scheduler": ("fcfs", "jit", "timeline"),
    "--axis": ("step", "ms"),
}


def commands_of(top: argparse.ArgumentParser) -> dict[str, argparse.ArgumentParser]:
    """The readers of the commands, by their names."""
    for action in top._actions:
        if isinstance(action, argparse._SubParsersAction):
            return dict(action.choices)
    return {}


def about_of(top: argparse.ArgumentParser) -> dict[str, str]:
    """Of each command what it does."""
    for action in top._actions:
        if isinstance(action, argparse._SubParsersAction):
            return {choice.dest: choice.help or "" for choice in action._choices_actions}
    return {}


def options_of(reader: argparse.ArgumentParser) -> list[argparse.Action]:
    return [action for action in reader._actions if action.option_strings]


def shell_words(action: argparse.Action) -> tuple[str, ...]:
    """The words that may follow an option, or a shell's name."""
    for name in action.option_strings:
        if name in MODES:
            return MODES[name]
    return ("bash", "zsh", "fish") if action.dest == "shell" else ()


def bash(top: argparse.ArgumentParser) -> Iterator[str]:
    commands = commands_of(top)
    yield "# bash completion for lazbendix"
    yield "_lazbendix() {"
    yield "    local word=${COMP_WORDS[COMP_CWORD]} before=${COMP_WORDS[COMP_CWORD-1]}"
    yield '    if [ "$COMP_CWORD" -eq 1 ]; then'
    yield (
        f"        mapfile -t COMPREPLY < <(compgen -W '{' '.join(commands)} --help --version' -- "
        '"$word")'
    )
    yield "        return"
    yield "    fi"
    yield "    case $before in"
    for name, words in MODES.items():
        yield (
            f"    {name}) mapfile -t COMPREPLY < <(compgen -W '{' '.join(words)}' -- \"$word\"); "
            "return ;;"
        )
    yield (
        "    completions) mapfile -t COMPREPLY < <(compgen -W 'bash zsh fish' -- \"$word\"); "
        "return ;;"
    )
    yield (
        f"    help) mapfile -t COMPREPLY < <(compgen -W '{' '.join(commands)}' -- \"$word\"); "
        "return ;;"
    )
    yield "    esac"
    yield "    local options="
    yield "    case ${COMP_WORDS[1]} in"
    for name, reader in commands.items():
        options = [option for action in options_of(reader) for option in action.option_strings]
        yield f"    {name}) options='{' '.join(options)}' ;;"
    yield "    esac"
    yield '    if [ "${word#-}" != "$word" ]; then'
    yield '        mapfile -t COMPREPLY < <(compgen -W "$options" -- "$word")'
    yield "    else"
    yield '        mapfile -t COMPREPLY < <(compgen -f -- "$word")'
    yield "    fi"
    yield "}"
    yield "complete -o filenames -F _lazbendix lazbendix"


def zsh_text(text: str) -> str:
    return (
        text.replace("\\", "\\\\")
        .replace("'", "'\\''")
        .replace("[", "(")
        .replace("]", ")")
        .replace(":", "\\:")
    )


def zsh(top: argparse.ArgumentParser) -> Iterator[str]:
    yield "#compdef lazbendix"
    yield "_lazbendix() {"
    yield "    local -a commands"
    yield "    commands=("
    for name, about in about_of(top).items():
        yield f"        '{name}:{zsh_text(about)}'"
    yield "    )"
    yield "    if (( CURRENT == 2 )); then _describe command commands; return; fi"
    yield "    local command=$words[2]"
    yield "    shift words; (( CURRENT-- ))"
    yield "    case $command in"
    for name, reader in commands_of(top).items():
        told = []
        for action in options_of(reader):
            words = shell_words(action)
            takes = (
                f":word:({' '.join(words)})" if words else "" if action.nargs == 0 else ":value:"
            )
            told += [
                f"'{option}[{zsh_text(action.help or '')}]{takes}'"
                for option in action.option_strings
            ]
        rest = "'1:shell:(bash zsh fish)'" if name == "completions" else "'*:file:_files'"
        yield f"    {name}) _arguments {' '.join([*told, rest])} ;;"
    yield "    esac"
    yield "}"
    yield '_lazbendix "$@"'


def fish_text(text: str) -> str:
    return text.replace("\\", "\\\\").replace("'", "\\'")


def fish(top: argparse.ArgumentParser) -> Iterator[str]:
    yield "# fish completion for lazbendix"
    for name, about in about_of(top).items():
        yield f"complete -c lazbendix -n __fish_use_subcommand -f -a {name} -d '{fish_text(about)}'"
    for name, reader in commands_of(top).items():
        seen = f"-n '__fish_seen_subcommand_from {name}'"
        for action in options_of(reader):
            words = shell_words(action)
            takes = f" -x -a '{' '.join(words)}'" if words else "" if action.nargs == 0 else " -r"
            for option in action.option_strings:
                flag = f"-l {option[2:]}" if option.startswith("--") else f"-s {option[1:]}"
                yield (
                    f"complete -c lazbendix {seen} {flag}{takes} -d "
                    f"'{fish_text(action.help or '')}'"
                )
    yield "complete -c lazbendix -n '__fish_seen_subcommand_from completions' -f -a 'bash zsh fish'"


def completions(top: argparse.ArgumentParser, shell: str) -> str:
    """What a shell reads to complete the words."""
    return "\n".join({"bash": bash, "zsh": zsh, "fish": fish}[shell](top)) + "\n"


def roff(text: str) -> str:
    """A text as a man page has it."""
    text = text.replace("\\", "\\e").replace("-", "\\-")
    return "\n".join(
        f"\\&{line}" if line.startswith((".", "'")) else line for line in text.split("\n")
    )


def man_option(action: argparse.Action) -> Iterator[str]:
    words = ", ".join(action.option_strings) or str(action.metavar or action.dest)
    value = (
        f" {action.metavar}"
        if action.option_strings and action.nargs != 0 and action.metavar
        else ""
    )
    yield ".TP"
    yield f".B {roff(words + value)}"
    yield roff(action.help or "")


def man_page(top: argparse.ArgumentParser, version: str) -> str:
    """The man page of the command, in roff."""
    lines = [
        f'.TH LAZBENDIX 1 "" "lazbendix {version}" "User Commands"',
        ".SH NAME",
        f"lazbendix \\- {roff((top.description or '')[0].lower() + (top.description or '')[1:-1])}",
        ".SH SYNOPSIS",
        ".B lazbendix",
        "COMMAND [OPTION]... [FILE]...",
        ".SH DESCRIPTION",
        roff(top.description or ""),
    ]
    lines += [".SH COMMANDS"]
    for name, reader in commands_of(top).items():
        about, _, _ = (reader.format_usage().removeprefix("usage: ")).partition("\n\n")
        lines += [
            f".SS {roff(name)}",
            f".B {roff(' '.join(about.split()))}",
            ".PP",
            roff(reader.description or ""),
        ]
        for action in reader._actions:
            lines += [] if action.dest == "help" else man_option(action)
        examples = list(reader.get_default("examples") or [])
        lines += (
            [".PP", "Examples:", ".PP", ".nf", ".RS", *map(roff, examples), ".RE", ".fi"]
            if examples
            else []
        )
    lines += [".SH EXIT STATUS", roff((top.epilog or "").partition("examples. ")[2])]
    lines += [
        ".SH ENVIRONMENT",
        ".TP",
        ".B LAZBENDIX_PROGRAM",
        "the proved program; else hub_main beside the package, or on the path",
        ".TP",
        ".B LAZBENDIX_PROGRESS",
        "where it is set, watch writes its progress to a file too",
        ".TP",
        ".B NO_COLOR",
        "where it is set, nothing is coloured",
    ]
    lines += [".SH FILES", ".TP", ".B home.journal", "in the current folder: what keep keeps"]
    return "\n".join(lines) + "\n"
