#!/usr/bin/env python3
"""make.py [PROGRAM] [--look]: writes the completions for bash, zsh and fish and the man page from the program's help.

What they say of commands, names of files and options is what `--help` prints, so nothing is written twice. What it
doesn't say stands here: the words that a value may be, of which each value of an option has a line in VALUES. With
--look nothing is written, and the status is 1 if a file isn't what would be written now, or bash completes otherwise
than it should.
"""
import argparse
import json
import os
import re
import shutil
import subprocess
import sys

HERE = os.path.dirname(os.path.abspath(__file__))
ROOT = os.path.dirname(HERE)
CONDITIONS = ["possibly", "possibly-no", "definitely", "definitely-no", "unknown"]
# What each value of an option may be: words; or None, if any text is.
VALUES = {
    "ADDRESS": None,
    "ALWAYS": None,
    "COLUMN": None,
    "FOLDER": None,
    "FORMAT": ["text", "json"],
    "IDLE": None,
    "JOBS": [str(number) for number in range(1, 17)],
    "JSON": None,
    "JUNIT": None,
    "KIND": ["possibly", "definitely"],
    "LIST": CONDITIONS,
    "NEVER": None,
    "NOTES": None,
    "PATH": None,
    "PATTERN": None,
    "PORT": None,
    "PORT_FILE": None,
    "PREDICATE": None,
    "SECONDS": None,
    "SOMETIMES": None,
    "TEXT": None,
    "TOKEN": None,
    "TOKEN_FILE": None,
    "WATCHERS": None,
    "WIDTH": None,
    "WORKERS": [str(number) for number in range(1, 17)],
}
# What the environment may have: that is said at the end of the program's help too.
VARIABLES = {"MONITOR_EXPLAIN": "If it is 1, the same is explained as with --explain; each other value is as none"}
# What the program takes before the arguments are parsed, so no help says it.
INPUT = """With - in the place of SPEC and no STREAM, `judge`, `check`, `draw` and `explore` read a bundle from the \
standard input, with all of their options: the session document, and before each stream a line ---. Else a file that \
is named - is the standard input."""
# The option that is taken out of the arguments before they are parsed, so no list of options has it: that of the program
# and of each command get it.
ANYWHERE = (None, "max-time", "SECONDS", "End with status 6 if the run takes longer than so many seconds, 1 to 604800")
MADE = "made by completions/make.py from the program's help"
OPTION = re.compile(r"^ +(?:-(\w), |    )--([\w-]+)(?: <(\w+)>)? +(.+)$")
ARGUMENT = re.compile(r"^ +<(\w+)>(\.\.\.)? +(.+)$")
COMMAND = re.compile(r"^ +([\w-]+) +(.+)$")


class Help:
    """What a help text says, by its parts."""

    def __init__(self, text):
        paragraphs, headed = [], {}
        for part in text.strip("\n").split("\n\n"):
            head, _, body = part.partition("\n")
            if head in ("Commands:", "Arguments:", "Options:", "Status:"):
                headed[head] = body.split("\n")
            else:
                paragraphs.append(part)
        self.about = paragraphs[0]
        self.usage = paragraphs[1].removeprefix("Usage: ")
        self.after = paragraphs[2:]
        self.commands = [COMMAND.match(line).groups() for line in headed.get("Commands:", [])]
        self.arguments = [ARGUMENT.match(line).groups() for line in headed.get("Arguments:", [])]
        self.options = [OPTION.match(line).groups() for line in headed.get("Options:", [])]
        self.options.insert(1 + [name for _, name, _, _ in self.options].index("explain"), ANYWHERE)
        self.statuses = [COMMAND.match(line).groups() for line in headed.get("Status:", [])]


def help_of(program, *words):
    ran = subprocess.run([program, *words, "--help"], capture_output=True, text=True, check=True)
    return Help(ran.stdout.replace("(Built without its proofs.) ", ""))


def read_helps(program):
    """The help of the program, and that of each command by its name."""
    top = help_of(program)
    helps = {name: help_of(program, name) for name, _ in top.commands if name != "help"}
    for one in helps.values():
        for _, name, value, _ in one.options:
            if value is not None and value not in VALUES:
                sys.exit(f"make.py: VALUES has no line for the value {value} of --{name}")
    return top, helps


def flags(options):
    """The options as words of a command line."""
    return [word for short, name, _, _ in options for word in ([f"-{short}"] if short else []) + [f"--{name}"]]


def bash(top, helps):
    names = " ".join(name for name, _ in top.commands)
    commands = "".join(f"    {name}) options='{' '.join(flags(one.options))}' ;;\n" for name, one in helps.items())
    valued = {name: value for one in helps.values() for _, name, value, _ in one.options if value is not None}
    values = "".join(
        f"    --{name})\n" + ("      _monitor_conditions \"$current\"\n" if value == "LIST" else
                              f"      COMPREPLY=($(compgen -W '{' '.join(VALUES[value])}' -- \"$current\"))\n"
                              if VALUES[value] else "") + "      return ;;\n"
        for name, value in valued.items())
    return f"""# bash completion of monitor, {MADE}
# shellcheck disable=SC2207

# the last condition of a list, after what stands before it: other conditions, or the name of a predicate
_monitor_conditions() {{
  local before=''
  case "$1" in *[,:]*) before="${{1%"${{1##*[,:]}}"}}" ;; esac
  COMPREPLY=($(compgen -P "$before" -W '{' '.join(CONDITIONS)}' -- "${{1#"$before"}}"))
  # where bash cuts words at a colon, what stands before the last one is there already
  case "$COMP_WORDBREAKS" in
    *:*) COMPREPLY=("${{COMPREPLY[@]#"${{before%"${{before##*:}}"}}"}}") ;;
  esac
}}

_monitor() {{
  local line="${{COMP_LINE:0:COMP_POINT}}" all words=() word current previous command options skip=''
  read -ra all <<< "$line"
  case "$line" in *[[:space:]]) all+=('') ;; esac
  # --explain, and --max-time with its value, may stand anywhere, before a command too
  for word in "${{all[@]:0:${{#all[@]}}-1}}"; do
    if [ -n "$skip" ]; then
      skip=''
    else
      case "$word" in --explain | --max-time=*) ;; --max-time) skip=1 ;; *) words+=("$word") ;; esac
    fi
  done
  words+=("${{all[-1]}}")
  current="${{words[-1]}}" previous='' command="${{words[1]:-}}"
  [ "${{#words[@]}}" -gt 1 ] && previous="${{words[-2]}}"
  case "$current" in --*=*) previous="${{current%%=*}}" current="${{current#*=}}" ;; esac
  COMPREPLY=()
  [ -n "$skip" ] && return
  if [ "${{#words[@]}}" -le 2 ]; then
    COMPREPLY=($(compgen -W '{names} {' '.join(flags(top.options))}' -- "$current"))
    return
  fi
  case "$previous" in
{values}  esac
  case "$command" in
{commands}    help)
      COMPREPLY=($(compgen -W '{names}' -- "$current"))
      return ;;
    *) return ;;
  esac
  case "$current" in
    -*) COMPREPLY=($(compgen -W "$options" -- "$current")) ;;
    *) compopt -o default 2> /dev/null ;;
  esac
}}

complete -F _monitor monitor
"""


def quoted(text):
    """The text within single quotes of a shell."""
    return text.replace("'", "'\\''")


def described(text):
    """The text as a description of zsh's _arguments, within single quotes."""
    return quoted(text.replace("\\", "\\\\").replace("[", "\\[").replace("]", "\\]").replace(":", "\\:"))


def zsh_value(value):
    if value is None:
        return ""
    if value == "LIST":
        return ":LIST:_monitor_conditions"
    return f":{value}:" + (f"({' '.join(VALUES[value])})" if VALUES[value] else "")


def zsh_option(option):
    short, name, value, text = option
    rest = f"[{described(text)}]{zsh_value(value)}'"
    if short:
        return f"'(-{short} --{name})'{{-{short},--{name}}}'{rest}"
    return f"'--{name}{rest}"


def zsh_rules(one):
    rules = [zsh_option(option) for option in one.options]
    rules += [f"'{'*' if many else ''}:{described(text)}:_files'" for _, many, text in one.arguments]
    return " \\\n        ".join(rules)


def zsh(top, helps):
    commands = "".join(f"    '{name}:{described(text)}'\n" for name, text in top.commands)
    cases = "".join(f"    {name})\n      _arguments \\\n        {zsh_rules(one)} ;;\n" for name, one in helps.items())
    return f"""#compdef monitor
# zsh completion of monitor, {MADE}

_monitor_conditions() {{
  compset -P '*[,:]'
  compadd -S '' -- {' '.join(CONDITIONS)}
}}

_monitor() {{
  local curcontext="$curcontext" state line
  local -a commands
  commands=(
{commands}  )
  _arguments -C \\
    {(' ' + chr(92) + chr(10) + '    ').join(zsh_option(option) for option in top.options)} \\
    '1:command:->command' \\
    '*::argument:->argument'
  case "$state" in
    command) _describe command commands; return ;;
    argument) ;;
    *) return ;;
  esac
  case "$line[1]" in
{cases}    help)
      _describe command commands ;;
  esac
}}

_monitor "$@"
"""


def fish_option(condition, option):
    short, name, value, text = option
    line = f"complete -c monitor -n '{condition}'" + (f" -s {short}" if short else "") + f" -l {name}"
    if value is not None:
        words = "(__monitor_conditions)" if value == "LIST" else " ".join(VALUES[value] or [])
        line += f" -x -a '{words}'" if words else " -x"
    return f"{line} -d '{quoted(text)}'\n"


def fish(top, helps):
    none = "__fish_use_subcommand"
    text = f"""# fish completion of monitor, {MADE}

# the last condition of a list, after what stands before it: other conditions, or the name of a predicate
function __monitor_conditions
    set -l before (commandline -ct | string replace -r '^--fail-on=' '' | string match -r '^.*[,:]')
    printf '%s\\n' "$before"{{{','.join(CONDITIONS)}}}
end

complete -c monitor -n '{none}' -f
"""
    text += "".join(f"complete -c monitor -n '{none}' -a {name} -d '{quoted(said)}'\n" for name, said in top.commands)
    text += "".join(fish_option(none, option) for option in top.options)
    for name, one in helps.items():
        text += "".join(fish_option(f"__fish_seen_subcommand_from {name}", option) for option in one.options)
    names = " ".join(name for name, _ in top.commands)
    return text + f"complete -c monitor -n '__fish_seen_subcommand_from help' -f -a '{names}'\n"


def roff(text):
    """The text as lines of a man page."""
    text = text.replace("\\", "\\e").replace("-", "\\-")
    return re.sub(r"(?m)^([.'])", r"\\&\1", re.sub("`([^`]*)`", r"\\fB\1\\fR", text))


def roff_option(option):
    short, name, value, text = option
    head = (f"\\fB\\-{short}\\fR, " if short else "") + f"\\fB{roff('--' + name)}\\fR"
    return f".TP\n{head}" + (f" \\fI{value}\\fR" if value else "") + f"\n{roff(text)}\n"


def roff_paragraph(text):
    """A paragraph; of one whose further lines are indented, these stand as they are."""
    first, _, rest = text.partition("\n")
    return f".PP\n{roff(first)}\n" + (f".PP\n.nf\n{roff(rest)}\n.fi\n" if rest else "")


def man(program, top, helps):
    version = subprocess.run([program, "--version"], capture_output=True, text=True, check=True).stdout.split()[1]
    text = f""".\\" {MADE}
.TH MONITOR 1 "" "monitor {version}" "User commands"
.SH NAME
monitor \\- judges predicates on a distributed computation
.SH SYNOPSIS
"""
    usages = [*(one.usage for one in helps.values()), "monitor < BUNDLE", "monitor help [COMMAND]", "monitor --version"]
    text += ".br\n".join(f"{roff(usage)}\n" for usage in usages)
    text += f".SH DESCRIPTION\n{roff(top.about)}\n.SH COMMANDS\n"
    for name, one in helps.items():
        text += f".SS {name}\n{roff(one.about)}.\n.PP\n{roff(one.usage)}\n"
        text += "".join(f".TP\n\\fI{value}\\fR{'...' if many else ''}\n{roff(said)}\n"
                        for value, many, said in one.arguments)
        text += "".join(roff_option(option) for option in one.options)
        text += "".join(roff_paragraph(part) for part in one.after)
    text += ".SH OPTIONS\n" + "".join(roff_option(option) for option in top.options)
    text += f".SH STANDARD INPUT\n{roff(INPUT)}\n"
    text += ".SH ENVIRONMENT\n" + "".join(f".TP\n\\fB{name}\\fR\n{roff(said)}\n" for name, said in VARIABLES.items())
    text += ".SH EXIT STATUS\n" + "".join(f".TP\n{number}\n{roff(said)}\n" for number, said in top.statuses)
    return text


def by_fish(line, script):
    """What fish makes of a line by the script: the completions without their descriptions."""
    asked = f"{script}\ncomplete -C {json.dumps(line)}\n"
    ran = subprocess.run(["fish", "--no-config", "-c", asked], capture_output=True, text=True, check=False)
    return [found.split("\t")[0] for found in ran.stdout.splitlines()] if not ran.stderr else [f"failed: {ran.stderr}"]


def by_bash(line, script):
    """What bash makes of a line by the script."""
    asked = f"""{script}
complete -p monitor > /dev/null || exit 1
COMP_WORDBREAKS=$' \\t\\n"><=;|&(:'
COMP_LINE="$1" COMP_POINT="${{#1}}" COMP_WORDS=() COMP_CWORD=0
_monitor 2> /dev/null
printf '%s\\n' "${{COMPREPLY[@]}}"
"""
    ran = subprocess.run(["bash", "-c", asked, "bash", line], capture_output=True, text=True, check=False)
    return ran.stdout.split() if ran.returncode == 0 and not ran.stderr else [f"failed: {ran.stderr}"]


def is_there(shell):
    return shutil.which(shell) is not None


def wrong_completions(files):
    """The lines that bash completes otherwise than it should, and fish, if it is there; and what zsh can't read."""
    every = ["judge", "check", "draw", "serve", "explore", "test", "infer", "reduce", "batch", "bundle", "merge", "help",
             "-h", "--help", "-V", "--version", "--explain", "--max-time"]
    wanted = {
        "monitor ": every,
        "monitor j": ["judge"],
        "monitor --v": ["--version"],
        "monitor --explain ju": ["judge"],
        "monitor --max-time 5 ju": ["judge"],
        "monitor --max-time=5 ju": ["judge"],
        "monitor --max-time ": [],
        "monitor judge --max-time 5 --fa": ["--fail-on"],
        "monitor --explain draw session report a --evidence ": ["possibly", "definitely"],
        "monitor judge -": [
            "--width", "--ask", "--workers", "--beyond-width", "--fail-on", "--format", "--notes", "-h", "--help",
            "--explain", "--max-time"],
        "monitor judge --fa": ["--fail-on"],
        "monitor judge session --format ": ["text", "json"],
        "monitor check session report a --format ": ["text", "json"],
        "monitor test --n": ["--never"],
        "monitor judge session --fail-on ": CONDITIONS,
        "monitor judge session --fail-on possibly,u": ["possibly,unknown"],
        "monitor judge session --fail-on both:defin": ["definitely", "definitely-no"],
        "monitor judge session --fail-on=a:possibly,both:po": ["possibly", "possibly-no"],
        "monitor judge session --fail-on a:unknown,p": ["unknown,possibly", "unknown,possibly-no"],
        "monitor judge --workers 1": ["1", "10", "11", "12", "13", "14", "15", "16"],
        "monitor serve session --p": ["--port", "--port-file"],
        "monitor serve session --port ": [],
        "monitor explore session a --n": ["--never", "--notes"],
        "monitor draw --": [
            "--width", "--ask", "--beyond-width", "--predicate", "--evidence", "--from", "--all", "--notes", "--help",
            "--explain", "--max-time"],
        "monitor draw session report a --evidence ": ["possibly", "definitely"],
        "monitor help s": ["serve"],
        "monitor check ": [],
    }
    script = files["completions/monitor.bash"]
    wrong = [f"bash completes {line!r} by {found}, and not by {words}" for line, words in wanted.items()
             if sorted(found := by_bash(line, script)) != sorted(words)]
    wanted = {
        "monitor j": ["judge"],
        "monitor judge --f": ["--fail-on"],
        "monitor judge session --fail-on ": CONDITIONS,
        "monitor judge session --fail-on a:possibly,both:defin": ["a:possibly,both:definitely",
                                                                 "a:possibly,both:definitely-no"],
        "monitor judge --workers 1": ["1", "10", "11", "12", "13", "14", "15", "16"],
        "monitor serve session --p": ["--port", "--port-file"],
        "monitor help s": ["serve"],
    }
    script = files["completions/monitor.fish"]
    if is_there("fish"):
        wrong += [f"fish completes {line!r} by {found}, and not by {words}" for line, words in wanted.items()
                  if sorted(found := by_fish(line, script)) != sorted(words)]
    if is_there("zsh"):
        read = subprocess.run(["zsh", "-n"], input=files["completions/_monitor"], stderr=subprocess.PIPE, text=True,
                              check=False)
        wrong += [f"zsh can't read completions/_monitor: {read.stderr}"] if read.returncode or read.stderr else []
    return wrong


def main():
    parser = argparse.ArgumentParser(description=__doc__)
    parser.add_argument("program", nargs="?", default=os.path.join(ROOT, "crates", "monitor", "out", "monitor"))
    parser.add_argument("--look", action="store_true", help="compare, and write nothing")
    given = parser.parse_args()
    program = os.path.abspath(given.program)
    top, helps = read_helps(program)
    files = {"completions/monitor.bash": bash(top, helps), "completions/_monitor": zsh(top, helps),
             "completions/monitor.fish": fish(top, helps), "docs/monitor.1": man(program, top, helps)}
    wrong = []
    for name, text in files.items():
        path = os.path.join(ROOT, name)
        if not given.look:
            with open(path, "w", encoding="utf-8") as file:
                file.write(text)
        elif not os.path.exists(path) or open(path, encoding="utf-8").read() != text:
            wrong.append(f"{name} isn't what the help gives now: run completions/make.py")
    wrong += wrong_completions(files)
    print("\n".join(wrong) or f"{len(files)} files are those of the help")
    return 1 if wrong else 0


if __name__ == "__main__":
    sys.exit(main())
