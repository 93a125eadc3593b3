"""Completion of the programs, for bash and zsh."""

import re
from typing import Any

from ..home import DATA
from ..vapctl.main import parser
from .commands_manual import commands_of, options_of

# the words that a command of celbpf takes; what is no option is a file
COMMANDS = {
    "compile": "", "review": "--policy --review --namespace --params --steps", "run-image": "--steps", "asm": "",
    "list": "", "debug": "--review --namespace --params",
}
OPTION = re.compile(r"(?<![\w-])--[a-z][a-z-]*")
NAMES = ["celbpf", "gatekeeper", "vapctl", "kubectl-vap"]
WORDS = """_celbpf_words() {
    case $1 in
%s
    esac
}
"""
BASH = """# bash completion of celbpf, gatekeeper and vapctl

%s
_celbpf() {
    local word=${COMP_WORDS[COMP_CWORD]} name=${1##*/} words
    COMPREPLY=()
    case $name in
    celbpf | vapctl | kubectl-vap)
        if [ "$COMP_CWORD" -eq 1 ]; then
            mapfile -t COMPREPLY < <(compgen -W "$(_celbpf_words "$name")" -- "$word")
            return
        fi
        name="$name ${COMP_WORDS[1]}"
        ;;
    esac
    words=$(_celbpf_words "$name")
    case $word in
    -*) mapfile -t COMPREPLY < <(compgen -W "$words" -- "$word") ;;
    *)
        compopt -o filenames 2>/dev/null
        mapfile -t COMPREPLY < <(compgen -f -- "$word")
        ;;
    esac
}

complete -F _celbpf %s
"""
ZSH = """#compdef %s
# zsh completion of celbpf, gatekeeper and vapctl

%s
_celbpf() {
    local name=$service
    if [[ $name == (celbpf|vapctl|kubectl-vap) ]]; then
        if [[ $CURRENT -eq 2 ]]; then
            compadd -- $(_celbpf_words "$name")
            return
        fi
        name="$name $words[2]"
    fi
    if [[ $words[CURRENT] == -* ]]; then
        compadd -- $(_celbpf_words "$name")
    else
        _files
    fi
}

_celbpf "$@"
"""


def of_gatekeeper() -> str:
    """The options in its help text."""
    return " ".join(dict.fromkeys(OPTION.findall((DATA / "run-commands" / "gatekeeper.help").read_text())))


def of_vapctl(name: str) -> dict[str, Any]:
    """The subcommands of `vapctl` by one of its names, and the options of each."""
    commands = commands_of(parser(name))
    return {name: " ".join(commands), **{f"{name} {one}": " ".join(options_of(command)) for one, command in commands.items()}}


def words() -> str:
    """The function that prints the commands of a program, or the options of a command or a program."""
    options = {"celbpf": " ".join(COMMANDS), **{f"celbpf {name}": found for name, found in COMMANDS.items()}}
    options.update({"gatekeeper": of_gatekeeper(), **of_vapctl("vapctl"), **of_vapctl("kubectl-vap")})
    names = {name: f"'{name}'" if " " in name else name for name in options}
    return WORDS % "\n".join(f"    {names[name]}) echo '{found}' ;;" for name, found in options.items())


def bash() -> str:
    """The completion for bash."""
    return BASH % (words(), " ".join(NAMES))


def zsh() -> str:
    """The completion for zsh."""
    return ZSH % (" ".join(NAMES), words())
