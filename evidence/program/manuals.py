"""The manual page and the shell completions of goqlanis, made from what its help says."""
import re
from typing import NamedTuple

# Up to this many values are listed right after an option's name in the manual.
FEW = 6
# How help shows an option, and what a task takes.
OPTION = r"  (-\w|  )[, ] --([\w-]+)(?: <(.+?)>)?"
OPERAND = r"  [\[<]([A-Z]+)[\]>](?:\.\.\.)?"
MANUAL = r"""
.TH GOQLANIS 1
.SH NAME
goqlanis \- {about}
.SH SYNOPSIS
.B goqlanis
[OPTIONS] [TEXT]
.br
.B goqlanis
COMMAND [OPTIONS]
.SH DESCRIPTION
Makes a QR code of TEXT, of a file, or of standard input, and shows it in the terminal or writes it
to a file. Input is encoded unchanged.
.SH OPTIONS
{options}.SH COMMANDS
Commands that make codes take most options above; those from wifi to event also fields.
{commands}.SH EXIT STATUS
0: success. 1: something was refused, or check found a code that departs from the standard. 2: the
command line is wrong.
.SH EXAMPLES
.nf
{examples}.fi
""".lstrip()
BASH = """
_goqlanis_option() {
  names+=" $2"
  if [[ $# -gt 2 && ($before == "$1" || $before == "$2") ]]; then values=$3; fi
}
_goqlanis() {
  local word=${COMP_WORDS[COMP_CWORD]} before=${COMP_WORDS[COMP_CWORD-1]} names=--help values
  unset values
  [[ $COMP_CWORD -gt 1 ]] || names+=' @words'
  case ${COMP_WORDS[1]} in
@tasks  esac
  COMPREPLY=($(compgen -W "${values-$names}" -- "$word"))
}
complete -o default -F _goqlanis goqlanis
""".lstrip()


class Option(NamedTuple):
    """An option: its heading, letter (with a hyphen, or empty), name, what it takes (or nothing),
    the words of which it takes one, and its help."""
    heading: str
    letter: str
    name: str
    value: str
    words: list
    help: str


class Task(NamedTuple):
    """A command, or a plain code, whose word is empty: what it does, the name and the help of what
    it takes (or nothing), all its options, those that only it has, and the end of its help."""
    word: str
    about: str
    operand: tuple
    options: list
    own: list
    end: str

    @property
    def draws(self):
        return any(it.name == "format" for it in self.options)


def _items(text, pattern):
    """Yields the heading, groups of `pattern` and help of each item, with its indented lines."""
    heading = ""
    for line in re.sub(r"\n {7,}", " ", text).splitlines():
        if item := re.fullmatch(pattern + r"  +(\S.*)", line):
            yield heading, item.groups()[:-1], item[item.re.groups]
        elif re.fullmatch(r"\S.*:", line):
            heading = line[:-1]


def _task(word, shown, plain):
    """Returns a task, by its help and the task of plain codes."""
    options = []
    for heading, (letter, name, value), help in _items(shown, OPTION):
        help, words = re.fullmatch(r"(.*?)(?: \[possible values: (.*)\])?", help).groups()
        words = words.split(", ") if words else []
        if name != "help":
            options.append(Option(heading, letter.strip(), name, value or "", words, help))
    operands = [(groups[0], help) for _, groups, help in _items(shown, OPERAND)]
    about = " ".join(shown.partition("\n\n")[0].split())
    task = Task(word, about, next(iter(operands), None), options, options,
                shown.partition("\nExamples:\n")[2])
    if not plain or not task.draws:
        return task
    known = {it.name for it in options}
    common = [it for it in plain.options
              if it.name not in known and it.heading not in ("Input", "Code", "Other")]
    names = {it.name for it in plain.options}
    own = [it for it in options if it.name not in names]
    return task._replace(options=options + common, own=own)


def commands(shown):
    """Returns the names of the commands, by the help of goqlanis."""
    listed = re.search(r"(?ms)^Commands .*?:\n(.*?)^$", shown)[1]
    return re.findall(r"(?m)^  (\w+)", listed)


def _tasks(ask):
    shown = ask("--help")
    plain = _task("", shown, None)
    return plain, [_task(it, ask(f"{it} --help"), plain) for it in commands(shown)]


def _roff(plain):
    return re.sub(r"[-\\.]", lambda it: {"-": r"\-", "\\": r"\e", ".": r"\&."}[it[0]], plain)


def _described(option):
    is_few = 0 < len(option.words) <= FEW
    value = "|".join(option.words) if is_few else option.value
    letter, more = option.letter and f"{option.letter}, ", value and f" {value}"
    words = f"{option.value}: {', '.join(option.words)}\n" if len(option.words) > FEW else ""
    return ".TP\n.B " + _roff(f"{letter}--{option.name}{more}\n{option.help}\n{words}")


def _command(task):
    operand = task.operand and _roff("{}: {}.\n".format(*task.operand)) or ""
    return f".SS goqlanis {task.word}\n{task.about}.\n{operand}{''.join(map(_described, task.own))}"


def _manual(plain, tasks):
    return MANUAL.format(about=plain.about, options="".join(map(_described, plain.options)),
                         commands="".join(map(_command, tasks)), examples=_roff(plain.end))


def _value(option, file, words):
    """Returns how a shell writes what an option takes: a file, one of the words at @, or nothing."""
    if not option.value:
        return ""
    return file if option.value == "FILE" else words.replace("@", " ".join(option.words))


def _listed(tasks):
    return " ".join(it.word for it in tasks)


def _bash(plain, tasks):
    text = ""
    for task in [*tasks, plain]:
        text += f"    {task.word or '*'})\n"
        for it in task.options:
            letter, value = it.letter or "''", _value(it, " ''", " '@'")
            text += f"      _goqlanis_option {letter} --{it.name}{value}\n"
        text += "      ;;\n"
    return BASH.replace("@words", _listed(tasks)).replace("@tasks", text)


def _quoted(plain, marks=""):
    """Returns a text for single quotes, with a backslash before each of these marks."""
    escaped = re.sub(f"([{re.escape(marks)}])", r"\\\1", plain) if marks else plain
    return escaped.replace("'", "'\\''")


def _zsh(plain, tasks):
    text = f"#compdef goqlanis\nlocal tasks=({_listed(tasks)})\ncase $words[2] in\n"
    for task in [*tasks, plain]:
        files = "" if task.draws else " '*:picture:_files'"
        text += f"  {task.word or '*'})\n    _arguments '1:text or command:($tasks)'{files}"
        for it in task.options:
            value = _value(it, ":file:_files", ":value:(@)")
            many = "*" * it.help.endswith("repeat as needed")
            name = f"{{{it.letter},--{it.name}}}'" if it.letter else f"'{many}--{it.name}"
            text += f" \\\n      {name}[{_quoted(it.help, '[]:')}]{value}'"
        text += " '--help[Print help]' ;;\n"
    return f"{text}esac\n"


def _fish(plain, tasks):
    start, words = "complete -c goqlanis", _listed(tasks)
    pictures = " ".join(it.word for it in tasks if not it.draws)
    text = f"{start} -f\n{start} -n '__fish_seen_subcommand_from {pictures}' -F\n" \
           f"{start} -n __fish_use_subcommand -a '{words}'\n"
    for task in [*tasks, plain]:
        seen = f"{'' if task.word else 'not '}__fish_seen_subcommand_from {task.word or words}"
        for it in task.options:
            letter, value = it.letter and f" -s {it.letter[1:]}", _value(it, " -r -F", " -x -a '@'")
            text += f"{start} -n '{seen}' -l {it.name}{letter}{value} -d '{_quoted(it.help)}'\n"
    return text


def pages(ask):
    """Returns the manual and completions by their files; `ask` returns what goqlanis prints."""
    tasks = _tasks(ask)
    return {"manual": _manual(*tasks), "bash": _bash(*tasks), "zsh": _zsh(*tasks),
            "fish": _fish(*tasks)}
