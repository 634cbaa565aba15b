"""What the completions for bash, fish and zsh take from the programs' parsers."""

import shlex
import textwrap
from collections.abc import Iterable

from programs import NAMES, Command, Option, commands

SEEN = "__fish_seen_subcommand_from"
# How fish and zsh complete each kind of value.
FISH_VALUES = {
    "id": " -x -a '(__ansible_vault_ids)'",
    "file": " -x -a '(__ansible_vault_files)'",
    "text": " -x",
    "": "",
}
ZSH_VALUES = {"id": "_ansible_vault_id", "file": "_ansible_vault_files", "text": " "}


def of_program(program: str) -> list[Command]:
    """Return a program and its commands."""
    return [command for command in commands() if command.program == program]


def bash_table(about: str, name: str, rows: Iterable[tuple[str, Iterable[str]]]) -> str:
    """Return a function of bash that prints the words that belong to its argument."""
    lines = [f"# {about}", f"_ansible_vault_{name}() {{", "    case $1 in"]
    for pattern, words in rows:
        text = f"{pattern}) echo {' '.join(words)} ;;"
        parts = textwrap.wrap(text, 110, subsequent_indent="    ", break_on_hyphens=False, break_long_words=False)
        lines.append(textwrap.indent(" \\\n".join(parts), "    "))
    return "\n".join([*lines, "    esac", "}\n"])


def spellings_of(options: Iterable[Option]) -> list[str]:
    """Return all names of these options."""
    return [name for option in options for name in option.names]


def spellings_by_kind() -> dict[str, list[str]]:
    """Return the names of all options that take a value, by what that is."""
    names: dict[str, list[str]] = {"id": [], "file": [], "text": []}
    for command in commands():
        for option in command.options:
            if option.value:
                names[option.kind] += [name for name in option.names if name not in names[option.kind]]
    return names


def bash() -> str:
    listed = [(name, [command.name for command in of_program(name)[1:]]) for name in NAMES if of_program(name)[1:]]
    options = [(f'"{each.line}"', spellings_of(each.options)) for each in commands()]
    values = [(" | ".join(names), [kind]) for kind, names in spellings_by_kind().items()]
    about_values = "What the value of an option is: a file, perhaps after a label, or any text."
    tables = [
        bash_table("The commands of a program.", "commands", listed),
        bash_table("The options of a program, or of one of its commands.", "options", options),
        bash_table(about_values, "kind", values),
    ]
    return "\n".join(tables)


def fish_option(option: Option) -> str:
    names = " ".join(f"-l {name[2:]}" if name.startswith("--") else f"-s {name[1:]}" for name in option.names)
    return f"{names}{FISH_VALUES[option.kind]} -d {shlex.quote(option.summary)}"


def fish_program(program: str) -> list[str]:
    own, *inner = of_program(program)
    names = " ".join(command.name for command in inner)
    of_files = " ".join(command.name for command in inner if command.takes_files)
    lines = [" -f", f" -n '{SEEN} {of_files}' -F"] if inner else []
    lines += [f" -n 'not {SEEN} {names}' -a {command.name} -d {shlex.quote(command.text)}" for command in inner]
    takers: dict[str, list[str]] = {}
    for command in (own, *inner):
        for option in command.options:
            takers.setdefault(fish_option(option), []).append(command.name)
    for text, taking in takers.items():
        condition = f" -n 'not {SEEN} {names}'" if taking == [""] else f" -n '{SEEN} {' '.join(taking)}'"
        lines.append(f"{condition if len(taking) <= len(inner) else ''} {text}")
    return [f"complete -c {program}{line}" for line in lines]


def fish() -> str:
    return "".join(f"{line}\n" for program in NAMES for line in fish_program(program))


def zsh_option(option: Option, single: set[str]) -> str:
    """Return the specification of an option. It excludes those of its alternatives that cannot be repeated."""
    excluded = sorted(option.alternatives & single)
    if option.names[-1] in ("--help", "--version"):
        excluded = ["-", "*"]
    before = ""
    if option.repeats:
        before = "*"
    elif len(excluded) > 1:
        before = f"({' '.join(excluded)})"
    names = [f"{name}=" if option.value and name.startswith("--") else name for name in option.names]
    spelled = f"'{{{','.join(names)}}}'" if len(names) > 1 else names[0]
    said = option.summary.replace("]", r"\]").replace("'", r"'\''")
    value = f":{option.value}:{ZSH_VALUES[option.kind]}" if option.value else ""
    return f"'{before}{spelled}[{said}]{value}'"


def zsh_command(command: Command) -> list[str]:
    single = {*spellings_of(option for option in command.options if not option.repeats)}
    specifications = [zsh_option(option, single) for option in command.options]
    if command.argument:
        number = "*" if command.argument.repeats else "1"
        what = "file:_ansible_vault_files" if command.takes_files else "text: "
        specifications.append(f"'{number}:{what}'")
    return specifications


def zsh_table(about: str, name: str, rows: dict[str, list[str]]) -> str:
    """Return a function of zsh that puts the words that belong to its argument into the array of its name."""
    lines = [f"# {about}", f"_ansible_vault_{name}() {{", "    case $1 in"]
    for pattern, words in rows.items():
        lines += [f"        '{pattern}') {name}=(", *(f"            {word}" for word in words), "        ) ;;"]
    return "\n".join([*lines, "    esac", "}\n"])


def zsh() -> str:
    inner = {program: of_program(program)[1:] for program in NAMES if of_program(program)[1:]}
    listed = {program: [shlex.quote(f"{each.name}:{each.text}") for each in inner[program]] for program in inner}
    specifications = {each.line: zsh_command(each) for each in commands()}
    about_specifications = "The options and arguments of a program, or of one of its commands."
    return "\n".join(
        [
            zsh_table("The commands of a program, and what they do.", "listed", listed),
            zsh_table(about_specifications, "specifications", specifications),
        ]
    )


WRITTEN = {"bash": bash, "fish": fish, "zsh": zsh}
