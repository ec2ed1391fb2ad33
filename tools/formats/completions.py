"""The completions of shells, from docs/commands.json."""

import json

from formats.commands import COMMANDS, PATH
from formats.language import GENERATED

FOLDER = "packaging/completions"
GLOBAL_FLAGS = {"--help": "prints the help", "--version": "prints the version"}
NAMES: list[str] = [each["name"] for each in COMMANDS["names"]]
FIRST_WORDS = [*NAMES, *GLOBAL_FLAGS]
BRIEF = {each["name"]: each["brief"] for each in (*COMMANDS["names"], *COMMANDS["flags"])} | GLOBAL_FLAGS


def lists_of(name: str) -> list[list[str]]:
    """The lists of words after a name that are right in any order: any of them where one is a flag alone."""
    if any(each["name"] == name and each.get("takes_files") for each in COMMANDS["names"]):
        return [each["words"] for each in COMMANDS["names"] if each["name"] == name] + [["--help"]]
    if name == "check":
        lists = [[*row["words"], "--lines", "--strict"] for row in COMMANDS["commands"]]
    else:
        lists = [[*row["words"][1:], "--lines"] for row in COMMANDS["commands"] if row["words"][0] == name]
    return [*lists, ["--help"]]


def in_bash() -> str:
    arms = [
        f"        {name}) lists=({' '.join(json.dumps(' '.join(words)) for words in lists_of(name))}) ;;"
        for name in NAMES
    ]
    return f"""# shellcheck shell=bash
# Completion of module-info in bash: each word with which those before it are words of a command.
# {GENERATED} from {PATH}.
_module_info() {{
    local given list lists=() word words="" rest
    given=("${{COMP_WORDS[@]:2:COMP_CWORD-2}}")
    case ${{COMP_WORDS[1]}} in
{chr(10).join(arms)}
    esac
    [[ $COMP_CWORD -gt 1 ]] || lists=("{' '.join(FIRST_WORDS)}") given=()
    for list in "${{lists[@]}}"; do
        rest=" $list "
        for word in "${{given[@]}}"; do
            # A list without the word offers nothing.
            [[ $rest == *" $word "* ]] && rest=${{rest/" $word "/ }} || rest=""
        done
        words+=" $rest"
    done
    mapfile -t COMPREPLY < <(compgen -W "$words" -- "${{COMP_WORDS[COMP_CWORD]}}" | sort -u)
    # Where names of files are no words, bash isn't to offer them.
    [[ ${{COMP_WORDS[1]}} == files && ${{given[0]-}} != --* ]] || compopt +o bashdefault +o default 2> /dev/null
}}
complete -o bashdefault -o default -F _module_info module-info
"""


def in_zsh() -> str:
    arms = [
        f"        {name}) lists=({' '.join(json.dumps(' '.join(words)) for words in lists_of(name))}) ;;"
        for name in NAMES
    ]
    described = [f"    '{word}:{BRIEF[word]}'" for word in dict.fromkeys([*FIRST_WORDS, *BRIEF])]
    return f"""#compdef module-info
# Completion of module-info in zsh: each word with which those before it are words of a command.
# {GENERATED} from {PATH}.
local -a described lists given
local -aU candidates
local list word rest
described=(
{chr(10).join(described)}
)
given=("${{(@)words[3,CURRENT-1]}}")
if (( CURRENT == 2 )); then
    lists=("{' '.join(FIRST_WORDS)}")
    given=()
else
    case ${{words[2]}} in
{chr(10).join(arms)}
    esac
fi
for list in "${{lists[@]}}"; do
    rest=" $list "
    for word in "${{given[@]}}"; do
        # A list without the word offers nothing.
        if [[ $rest == *" $word "* ]]; then rest=${{rest/" $word "/ }}; else rest=""; fi
    done
    for word in ${{=rest}}; do
        candidates+=(${{(M)described:#$word:*}})
    done
done
_describe 'word' candidates
[[ ${{words[2]}} != files || ${{given[1]}} == --null ]] || _files
"""


def in_fish() -> str:
    no_names = "not contains -- files (commandline -opc)[2]; or contains -- --null (commandline -opc)"
    lines = [
        "# Completion of module-info in fish: each word with which those before it are words of a command.",
        f"# {GENERATED} from {PATH}.",
        "function __module_info_offers --description 'Whether a word may follow: the word, and a list with it'",
        "    set -l given (commandline -opc)[3..-1]",
        "    for each in $given",
        "        contains -- $each $argv[2..-1]; or return 1",
        "    end",
        "    not contains -- $argv[1] $given",
        "end",
        f"complete -c module-info -n '{no_names}' -f",
        *(f"complete -c module-info -n __fish_use_subcommand -a '{word}' -d '{BRIEF[word]}'" for word in FIRST_WORDS),
    ]
    for name in NAMES:
        for words in lists_of(name):
            for word in words:
                when = f"contains -- {name} (commandline -opc)[2]; and __module_info_offers {word} {' '.join(words)}"
                lines.append(f"complete -c module-info -n '{when}' -a '{word}' -d '{BRIEF[word]}'")
    return "\n".join(dict.fromkeys(lines)) + "\n"


def files() -> dict[str, str]:
    return {
        f"{FOLDER}/module-info.bash": in_bash(),
        f"{FOLDER}/_module-info": in_zsh(),
        f"{FOLDER}/module-info.fish": in_fish(),
    }
