"""Man pages and completions, made from what each command says of itself: from the table of its options,
its usage, and for scripts from docs/SCRIPTS.md. tools/install puts them in their places."""
import re

from provenance import TOP
from usages import options_of, parser_of_fleet, usage_of
from words import version

# What each command is, in one line, and which pages say more.
NAMES = {
    "fiocut": ("runs the proved model of fio's triggers, job files and verify states", ["fiocut-world", "drive-target", "fleet"]),
    "fiocut-world": ("scripts of runs, cuts and checks, event by event", ["fiocut"]),
    "fiocut_node": ("a proved node of a fleet, as a filter", ["fleet", "fleet-server"]),
    "drive-target": ("writes a job to a file or drive, and checks it behind a cut of power", ["drive-witness", "fiocut"]),
    "drive-witness": ("has another machine's drive written, cut and checked", ["drive-agent", "drive-target"]),
    "drive-agent": ("carries out the orders of drive-witness on the machine under test", ["drive-witness"]),
    "fleet": ("has up to eight machines write, cuts their power, and checks their drives", ["fleet-server", "fiocut_node"]),
    "fleet-server": ("a machine under test, of a fleet", ["fleet", "fiocut_node"]),
    "drive": ("the proved program that drive-target and drive-witness call", ["drive-target", "drive-witness"]),
    "fiocut_seen": ("shows the bytes of the frames of a script", ["fiocut-judge", "fiocut-world"]),
    "fiocut-draw": ("draws a run of a script", ["fiocut-world"]),
    "fiocut-every-cut": ("cuts the power at each place of a script", ["fiocut-world"]),
    "fiocut-from-fio": ("makes of a job file for fio one that fiocut takes", ["fiocut"]),
    "fiocut-judge": ("judges the claims about what is seen of a script", ["fiocut_seen", "fiocut-world"]),
}
# Those that are scripts whose text says how they are called.
FRONTS = {"fiocut-draw": "examples/draw", "fiocut-every-cut": "examples/every-cut", "fiocut-from-fio": "examples/from-fio", "fiocut-judge": "examples/seen"}
# What stands where nothing is said.
NOTHING = "\\&"
# What has completions: all that is called by hand.
COMPLETED = ("fiocut", "fiocut_node", "drive-target", "drive-witness", "drive-agent", "fleet", "fleet-server")


def plain(text):
    """Returns a text that groff takes as it stands."""
    text = text.replace("\\", "\\e").replace("-", "\\-").replace("`", "\\(ga")
    return "\n".join(f"\\&{it}" if it[:1] in (".", "'") else it for it in text.split("\n"))


def head_of(name):
    says, _ = NAMES[name]
    return f'.TH {name.upper()} 1 "" "fiocut {version()}" "fiocut"\n.SH NAME\n{plain(name)} \\- {plain(says)}\n'


def end_of(name):
    others = "\n".join(f".BR {plain(it)} (1){',' if at + 1 < len(NAMES[name][1]) else ''}" for at, it in enumerate(NAMES[name][1]))
    return f".SH SEE ALSO\n{others}\n.PP\nThe pages of fiocut, in share/doc/fiocut: README.md, and docs/ with a manual of each command.\n"


def part_of(what, says):
    """Returns a part of a list: what is meant, in bold, and what is said of it."""
    return f".TP\n.B {plain(what)}\n{plain(says) or NOTHING}\n"


def program_page(name):
    """Returns the page of a program that says its usage."""
    usage = usage_of(name)
    text = head_of(name) + ".SH SYNOPSIS\n" + "".join(part_of(call, says) for call, says in usage.calls)
    if usage.before:
        text += ".SH DESCRIPTION\n" + plain("\n".join(usage.before)) + "\n"
    if usage.groups:
        text += ".SH OPTIONS\n"
    for heading, rows in usage.groups.items():
        text += f'.SS "{plain(heading)}"\n' if heading else ""
        text += "".join(part_of(f"{option} {value}".strip(), says) for option, value, says in rows)
    if usage.behind:
        text += ".SH NOTES\n" + "\n.PP\n".join(map(plain, usage.behind)) + "\n"
    return text + end_of(name)


def fleet_page():
    """Returns the page of fleet: its own text, and the options of its parser."""
    (options, _), (_, says) = options_of("fleet"), parser_of_fleet()
    text = head_of("fleet") + ".SH DESCRIPTION\n.nf\n" + plain(says.strip()) + "\n.fi\n.SH OPTIONS\n"
    return text + "".join(part_of(f"{it.name} {it.value}".strip(), f"{it.says or 'see above'} ({', '.join(it.commands)})") for it in options) + end_of("fleet")


def front_page(name):
    """Returns the page of a script: the text at its front."""
    with open(f"{TOP}/{FRONTS[name]}", encoding="utf-8") as it:
        text = it.read()
    said = text.partition('"""')[2].partition('"""')[0] if "python" in text.partition("\n")[0] else re.match(r"#!.*\n((?:#.*\n)+)", text)[1]
    lines = [re.sub(r"^# ?", "", it) for it in said.strip().splitlines()]
    return head_of(name) + f".SH DESCRIPTION\n{plain(name)} is {plain(FRONTS[name])} of the repository of fiocut.\n.PP\n.nf\n" + plain("\n".join(lines)) + "\n.fi\n" + end_of(name)


def without_links(text):
    """Returns the text of a page without the marks of links, of code and of weight."""
    return re.sub(r"\[([^\]]*)\]\([^)]*\)", r"\1", text).replace("**", "").replace("`", "")


def row_of(line):
    """Returns a row of a table, whose first cell is what the others tell of."""
    cells = [without_links(it.strip().replace("\\|", "|")) for it in re.split(r"(?<!\\)\|", line)[1:-1]]
    return part_of(cells[0], "; ".join(filter(None, cells[1:]))).rstrip("\n")


def line_of(line):
    """Returns a line of a page as one of a man page, but for a row of a table and what is set in."""
    head, item = re.match(r"(##+) (.*)", line), re.match(r"(- |\d+\. )(.*)", line)
    if head:
        return f'.SH "{plain(without_links(head[2])).upper()}"' if head[1] == "##" else f'.SS "{plain(without_links(head[2]))}"'
    if item:
        sign = "\\(bu" if item[1] == "- " else item[1].strip()
        return f".IP {sign} 3\n{plain(without_links(item[2]))}"
    return plain(without_links(line.strip())) if line.strip() else ".PP"


def page_of_markdown(path):
    """Returns the body of a man page, made of a page here."""
    with open(f"{TOP}/{path}", encoding="utf-8") as it:
        lines = it.read().splitlines()[1:]
    made, sets, rows = [], False, 0
    for line in lines:
        is_set = line.startswith("    ") or (sets and not line.strip())
        rows = rows + 1 if line.startswith("|") else 0
        if is_set != sets:
            made.append(".nf" if is_set else ".fi")
            sets = is_set
        if is_set or rows in (1, 2):
            made.append(plain(line) if is_set else ".PP")
        else:
            made.append(row_of(line) if rows else line_of(line))
    text = "\n".join([*made, *([".fi"] if sets else [])]) + "\n"
    # (no paragraph begins twice, nor behind a heading, nor before one)
    text = re.sub(r"(?:\.PP\n)+(?=\.(?:PP|SH|SS|TP|IP)\b)", "", text)
    return re.sub(r"(^|\n)(\.S[HS] [^\n]*)\n\.PP(?=\n)", r"\1\2", text).removeprefix(".PP\n")


def manuals():
    """Returns the man pages, by their names."""
    pages = {name: program_page(name) for name in NAMES if name not in ("fleet", "fiocut-world", *FRONTS)}
    pages |= {name: front_page(name) for name in FRONTS}
    pages["fleet"] = fleet_page()
    pages["fiocut-world"] = head_of("fiocut-world") + ".SH DESCRIPTION\n" + page_of_markdown("docs/SCRIPTS.md") + end_of("fiocut-world")
    return pages


def by_command(name):
    """Returns the options of a command that has commands, by these, or by nothing."""
    options, commands = options_of(name)
    common = [it for it in options if not it.commands or "serve" in it.commands]
    found = {it: [option for option in options if not option.commands or it in option.commands] for it in commands}
    return {"": common if not commands or name == "fleet-server" else [], **found}


def bash_of(name):
    """Returns the completion of a command for bash."""
    function, of = "_" + re.sub(r"\W", "_", name), by_command(name)
    first = " ".join([*filter(None, of), *(it.name for it in of[""]), "--help", "--version"])
    lines = [f"# Completion of {name}, made from its own options.", f"{function}()", "{", '    local word=${COMP_WORDS[COMP_CWORD]} options=""', "    COMPREPLY=()", '    case ${COMP_WORDS[1]} in']
    lines += [f'        {command}) options="{" ".join(it.name for it in options)}" ;;' for command, options in of.items() if command]
    lines += [f'        *) options="{" ".join(it.name for it in of[""])}" ;;', "    esac"]
    lines += [f'    [ "$COMP_CWORD" -gt 1 ] || options="{first}"', '    case $word in', '        -*) ;;', '        *) [ "$COMP_CWORD" -eq 1 ] || return 0 ;;', "    esac"]
    lines += ['    while read -r it; do COMPREPLY+=("$it"); done < <(compgen -W "$options" -- "$word")', "}", f"complete -o default -F {function} {name}", ""]
    return "\n".join(lines)


def quoted(text):
    """Returns a text that zsh takes as it stands in the words of _arguments."""
    return re.sub(r"(['\[\]:])", r"\\\1", text).replace("\\'", "'\\''")


def zsh_of(name):
    """Returns the completion of a command for zsh."""
    of, lines = by_command(name), [f"#compdef {name}", f"# Completion of {name}, made from its own options."]
    words = lambda options: " ".join(f"'*{it.name}[{quoted(it.says)}]{f':{it.value}:_files' if it.value else ''}'" for it in options)
    commands = " ".join(filter(None, of))
    lines += ["case ${words[2]} in"]
    lines += [f"    {command}) _arguments '1:command:({commands})' {words(options)} '*:file:_files' ;;" for command, options in of.items() if command]
    first = f"'1:command:({commands})' " if commands else ""
    lines += [f"    *) _arguments {first}{words(of[''])} '--help[says how it is called]' '--version[says which version it is]' '*:file:_files' ;;", "esac", ""]
    return "\n".join(lines)


def completions():
    """Returns the completions, by their paths below share."""
    found = {f"bash-completion/completions/{it}": bash_of(it) for it in COMPLETED}
    return {**found, **{f"zsh/site-functions/_{it}": zsh_of(it) for it in COMPLETED}}
