#!/usr/bin/env python3
"""Makes the completions of `macsecd` for bash, zsh and fish from the program's own help.

    python3 tools/completions.py PROGRAM FOLDER

FOLDER then has `macsecd.bash`, `_macsecd` and `macsecd.fish`. First a subcommand or a common option is completed; after a subcommand its options, the
values of an option where the help names them, and file names for the operands that are files. `tools/try_completions` tries each word.
"""
import os
import sys

# Nothing is left in the checkout.
sys.dont_write_bytecode = True
import help_texts

# The operands, and the values of options, that are names of files.
FILES = ("DISK", "FILE", "INPUT", "OUTPUT", "PATH", "SOCKET")
NOTE = "# Made by tools/completions.py from the help of the program."


def has_files(subcommand):
    return any(it in FILES for it in subcommand.operands)


def quoted(text):
    """Text in single quotes, for each of the three shells."""
    return "'" + text.replace("'", r"'\''") + "'"


def first_words(given):
    return [*(it.word for it in given.subcommands), *given.common_options()]


# bash: a case for each subcommand, and in it one for each option that takes a value. bash itself completes names of files.

def offered(words):
    return f"""COMPREPLY=($(compgen -W {quoted(' '.join(words))} -- "$word"))"""


def bash_value(option):
    return "compopt -o default" if option.value in FILES else offered(option.choices)


def bash_case(subcommand):
    yield f"    {subcommand.word})"
    yield from (f"        [ \"$before\" != {it.name} ] || {{ {bash_value(it)}; return; }}" for it in subcommand.options if it.value)
    for place in range(max(len(it.operands) for it in subcommand.forms)):
        if subcommand.choices_at(place):
            yield f"        [ \"$COMP_CWORD\" -ne {place + 2} ] || {{ {offered(subcommand.choices_at(place))}; return; }}"
    yield f"        options={quoted(' '.join(it.name for it in subcommand.options))} files={'yes' if has_files(subcommand) else 'no'}"
    yield "        ;;"


def bash(given):
    return [
        NOTE, "_macsecd() {",
        "    local word=$2 before=$3 options= files=no",
        "    COMPREPLY=()",
        f"    [ \"$COMP_CWORD\" -ne 1 ] || {{ {offered(first_words(given))}; return; }}",
        "    case ${COMP_WORDS[1]} in", *(line for it in given.subcommands for line in bash_case(it)), "    esac",
        "    # `--help` is taken alone, so it is offered right after the subcommand.",
        "    [ \"$COMP_CWORD\" -ne 2 ] || options=\"$options --help\"",
        "    case $word in",
        "    -*) COMPREPLY=($(compgen -W \"$options\" -- \"$word\")) ;;",
        "    *) [ \"$files\" = no ] || compopt -o default ;;",
        "    esac", "}", "complete -F _macsecd macsecd",
    ]


# zsh: the list of subcommands, and for each one the words of `_arguments`.

def zsh_option(option):
    values = f"({' '.join(option.choices)})" if option.choices else "_files" if option.value in FILES else " "
    value = f":{option.value}:{values}" if option.value else ""
    return quoted(f"{option.name}{value}")


def zsh_operand(subcommand, at, name):
    choices = subcommand.choices_at(at - 1)
    return quoted(f"{at}:word:({' '.join(choices)})" if choices else f"{at}:{name}:{'_files' if name in FILES else ' '}")


def zsh_case(subcommand):
    words = [*map(zsh_option, subcommand.options), quoted("(- *)--help"), *(zsh_operand(subcommand, at, it) for at, it in enumerate(max((form.operands for form in subcommand.forms), key=len), 1))]
    return f"    {subcommand.word}) _arguments {' '.join(words)} ;;"


def zsh(given):
    described = [f"        {quoted(f'{it.word}:{it.summary}')}" for it in given.subcommands]
    return [
        "#compdef macsecd", NOTE, "_macsecd() {", "    local -a subcommands", "    subcommands=(", *described, "    )",
        "    if (( CURRENT == 2 )); then",
        "        _describe subcommand subcommands", f"        compadd -- {' '.join(given.common_options())}", "        return",
        "    fi",
        "    local subcommand=$words[2]", "    shift words", "    (( CURRENT -= 1 ))",
        "    case $subcommand in", *map(zsh_case, given.subcommands), "    esac", "}",
        'if [ "$funcstack[1]" = _macsecd ]; then', '    _macsecd "$@"', "else", "    compdef _macsecd macsecd", "fi",
    ]


# fish: a line for each word.

def fish_lines(subcommand):
    condition = f"__fish_seen_subcommand_from {subcommand.word}"
    seen, right_after = f"-n {quoted(condition)}", f"-n {quoted(f'{condition}; and test (count (commandline -opc)) -eq 2')}"
    yield f"complete -c macsecd -n __fish_use_subcommand -f -a {subcommand.word} -d {quoted(subcommand.summary)}"
    yield f"complete -c macsecd {right_after} -l help"
    for option in subcommand.options:
        value = (" -r -F" if option.value in FILES else " -x") * bool(option.value) + f" -a {quoted(' '.join(option.choices))}" * bool(option.choices)
        yield f"complete -c macsecd {seen} -l {option.name.removeprefix('--')}{value}"
    for place in range(max(len(it.operands) for it in subcommand.forms)):
        if subcommand.choices_at(place):
            at = f"-n {quoted(f'{condition}; and test (count (commandline -opc)) -eq {place + 2}')}"
            yield f"complete -c macsecd {at} -f -a {quoted(' '.join(subcommand.choices_at(place)))}"
    yield f"complete -c macsecd {seen} {'-F' if has_files(subcommand) else '-f'}"


def fish(given):
    common = [f"complete -c macsecd -n __fish_use_subcommand -f -l {it.removeprefix('--')}" for it in given.common_options()]
    return [NOTE, *common, *(line for it in given.subcommands for line in fish_lines(it))]


def main():
    if len(sys.argv) != 3:
        sys.exit(__doc__)
    given, folder = help_texts.Help(os.path.abspath(sys.argv[1])), sys.argv[2]
    os.makedirs(folder, exist_ok=True)
    for name, lines in (("macsecd.bash", bash(given)), ("_macsecd", zsh(given)), ("macsecd.fish", fish(given))):
        with open(f"{folder}/{name}", "w", encoding="utf-8") as file:
            file.writelines(f"{it}\n" for it in lines)


if __name__ == "__main__":
    main()
