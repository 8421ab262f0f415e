"""Completions for bash, zsh and fish: the commands, and of each its options with their values, and files."""
import shlex

MADE = "# Completion of flowcheck for {shell}, made of the help of {version}."
ASKING = {"help": "Tell of all commands, or of one", "--help": "Tell of all commands", "--version": "Tell the version"}

BASH = """\
_flowcheck()
{{
    local word=${{COMP_WORDS[COMP_CWORD]}} before=${{COMP_WORDS[COMP_CWORD - 1]}} commands="{commands}"
    local options kind list place=0 index
    local -a words=()
    COMPREPLY=()
    # `--turns=5` stands as three words here.
    [[ $before == "=" ]] && before=${{COMP_WORDS[COMP_CWORD - 2]}}
    [[ $word == "=" ]] && word=
    case ${{COMP_WORDS[1]}} in
{cases}
    help) words=(command) ;;
    esac
    for ((index = 2; index < COMP_CWORD; index++)); do
        case ${{COMP_WORDS[index]}} in
        {valued}) [[ ${{COMP_WORDS[index + 1]}} == "=" ]] && ((index++)); ((index++)) ;;
        -*) ;;
        *) ((place++)) ;;
        esac
    done
    kind=${{words[place]}}
    ((place >= ${{#words[@]}})) && [[ "${{words[*]}}" == *files ]] && kind=files
    [[ $word == -* ]] && kind=options
    case $before in
{values}
    esac
    ((COMP_CWORD == 1)) && kind=first
    case $kind in
    file | files) return ;;
    first) list="$commands {asking}" ;;
    command) list=$commands ;;
    options) list=$options ;;
    number) list= ;;
    *) list=$kind ;;
    esac
    compopt +o default 2>/dev/null
    COMPREPLY=($(compgen -W "$list" -- "$word"))
}}
complete -o default -F _flowcheck flowcheck
"""

ZSH = """\
_flowcheck() {{
    local -a commands asking
    commands=(
{commands}
    )
    asking=(
{asking}
    )
    if ((CURRENT == 2)); then
        _describe -t commands command commands -- asking
        return
    fi
    shift words
    ((CURRENT--))
    case ${{words[1]}} in
    help) _describe -t commands command commands ;;
{cases}
    esac
}}

_flowcheck "$@"
"""


def options_of(table):
    """Each option of any command once, by its name."""
    return {option.name: option for command in reversed(table.commands) for option in command.options}


def kind_of(word):
    """What stands for a word: a file, several files, or a number."""
    return ("files" if word.is_several else "file") if word.is_file() else "number"


def kind_of_value(option):
    """What stands for the value of an option: a file, the values that there are, or a number."""
    return "file" if option.is_file() else " ".join(option.choices()) or "number"


def bash_completion(table):
    """The completion for bash."""
    cases = []
    for command in table.commands:
        options = " ".join(f"--{option.name}" for option in command.options)
        words = " ".join(map(kind_of, command.words))
        cases.append(f'    {command.name}) options="{options}" words=({words}) ;;')
    valued = [option for option in options_of(table).values() if option.value]
    values = [f'    --{option.name}) kind="{kind_of_value(option)}" ;;' for option in valued]
    return MADE.format(shell="bash", version=table.version) + "\n" + BASH.format(
        commands=" ".join(command.name for command in table.commands), asking=" ".join(ASKING), cases="\n".join(cases),
        valued=" | ".join(f"--{option.name}" for option in valued), values="\n".join(values),
    )


def described(name, told):
    """A name with what is said of it, as _describe takes it."""
    return shlex.quote(f"{name}:{told}")


def zsh_word(word, place):
    """The specification of a word for _arguments."""
    told = word.told.replace(":", r"\:")
    return shlex.quote(f"{'*' if word.is_several else place}:{word.name}, {told}:{'_files' if word.is_file() else ' '}")


def zsh_option(option):
    """The specification of an option for _arguments."""
    told = option.told.replace("[", r"\[").replace("]", r"\]")
    if not option.value:
        return shlex.quote(f"--{option.name}[{told}]")
    values = "_files" if option.is_file() else f"({' '.join(option.choices())})" if option.choices() else " "
    return shlex.quote(f"--{option.name}=[{told}]:{option.value}:{values}")


def zsh_completion(table):
    """The completion for zsh."""
    cases = []
    for command in table.commands:
        specifications = [zsh_word(word, place) for place, word in enumerate(command.words, start=1)]
        specifications += map(zsh_option, command.options)
        lines = [f"        {specification}" for specification in specifications]
        cases.append("\n".join([f"    {command.name}) _arguments \\", " \\\n".join(lines), "        ;;"]))
    indent = " " * 8
    head = "#compdef flowcheck\n" + MADE.format(shell="zsh", version=table.version) + "\n"
    return head + ZSH.format(
        commands="\n".join(indent + described(command.name, command.about) for command in table.commands),
        asking="\n".join(indent + described(*pair) for pair in ASKING.items()), cases="\n".join(cases),
    )


def fish_option(command, option):
    """The line of an option of a command."""
    words = ["complete", "-c", "flowcheck", "-n", f"__fish_seen_subcommand_from {command.name}", "-l", option.name]
    if option.value:
        values = ["-r", "-F"] if option.is_file() else ["-x"]
        words += values + (["-a", " ".join(option.choices())] if option.choices() else [])
    return fish_line([*words, "-d", option.told])


def fish_line(words):
    """A line of fish: in its single quotes a quote and a backslash have a backslash before them."""
    quoted = []
    for word in words:
        is_plain = word.replace("-", "").replace("_", "").isalnum()
        quoted.append(word if is_plain else "'" + word.replace("\\", "\\\\").replace("'", "\\'") + "'")
    return " ".join(quoted)


def fish_completion(table):
    """The completion for fish."""
    start = ["complete", "-c", "flowcheck"]
    lines = [fish_line([*start, "-f"])]
    none_yet = [*start, "-n", "__fish_use_subcommand"]
    lines += [fish_line([*none_yet, "-a", command.name, "-d", command.about]) for command in table.commands]
    lines.append(fish_line([*none_yet, "-a", "help", "-d", ASKING["help"]]))
    lines += [fish_line([*none_yet, "-l", name, "-d", ASKING[f"--{name}"]]) for name in ("help", "version")]
    names = " ".join(command.name for command in table.commands)
    lines.append(fish_line([*start, "-n", "__fish_seen_subcommand_from help", "-a", names]))
    for command in table.commands:
        if any(word.is_file() for word in command.words):
            lines.append(fish_line([*start, "-n", f"__fish_seen_subcommand_from {command.name}", "-F"]))
        lines += [fish_option(command, option) for option in command.options]
    return MADE.format(shell="fish", version=table.version) + "\n" + "\n".join(lines) + "\n"
