"""Tests that a program, what it says of itself, its man page and its completions have the same options."""
import os
import re
import shutil
import subprocess

from clones import TOP, run, skip, tell, tell_has, write
from manuals import COMPLETED, NAMES, by_command, completions, manuals
from usages import SOURCES, options_of, table_of, usage_of, usage_text

# What a program says of an option that it hasn't got, of one that wants something behind it, and of one
# that another command has: so it is asked which options it takes.
NONE, NOTHING, OTHER = "there is no such option", "nothing stands behind it", "it is for another command"


def names_in(text):
    """Returns the options that a text names."""
    return set(re.findall(r"(?<![\w-])--[a-z][a-z-]*", text)) - {"--help", "--version"}


def options(room):
    """Each option of a program's table is in its usage, its man page and its completions, and no other."""
    pages, found = manuals(), completions()
    for name in COMPLETED:
        rows, commands = options_of(name)
        own = {it.name for it in rows}
        page = names_in("\n".join(re.findall(r"^\.B (.*)$", pages[name], re.M)).replace("\\-", "-").replace("[OPTIONS]", ""))
        tell(f"{name}: the options of its man page", page | (own & names_in(usage_text(name)) if name == "fiocut_node" else set()), own)
        tell(f"{name}: the options of its completion for bash", names_in(found[f"bash-completion/completions/{name}"]), own)
        zsh = set(re.findall(r"'\*(--[a-z-]+)\[", found[f"zsh/site-functions/_{name}"]))
        tell(f"{name}: the options of its completion for zsh", zsh, own)
    for name in SOURCES:
        told = {row[0]: row[1] for rows in usage_of(name).groups.values() for row in rows}
        tell(f"{name}: the options of its usage", set(told), set(table_of(name)))
        tell(f"{name}: those behind which something stands", {it for it, value in told.items() if value}, {it for it, (takes, _) in table_of(name).items() if takes})
        printed = run(f"{TOP}/harness/out/{name}", "--help")[1] if os.path.isfile(f"{TOP}/harness/out/{name}") else usage_text(name)
        tell(f"{name}: the usage that it prints", printed, usage_text(name))
    printed = run(f"{TOP}/harness/fleet", "--help")[1]
    tell_has("fleet: what it prints", printed, "fleet write JOBFILE")
    for command, rows in by_command("fleet").items():
        if command:
            tell(f"fleet {command}: the options that it prints", names_in(re.sub(r"`[^`]*`", "", run(f"{TOP}/harness/fleet", command, "--help")[1].partition("options:")[2])), {it.name for it in rows})


def taken(room):
    """A program takes just the options that its table has for a command."""
    if not all(os.access(f"{TOP}/harness/out/{it}", os.X_OK) for it in SOURCES):
        return skip("harness", "harness/build hasn't built it")
    every = sorted(set().union(*map(table_of, SOURCES)))
    fronts = {"drive-target": lambda command: [command, "j", "t", "s"], "drive-witness": lambda command: [command, "j", "s"], "drive-agent": lambda command: ["t"], "fleet-server": lambda command: [command] if command == "link" else ["0", "t"]}
    for name, front in fronts.items():
        for command, rows in by_command(name).items():
            if not command and name in ("drive-target", "drive-witness"):
                continue
            for option in every:
                has = [it for it in rows if it.name == option]
                status, _, said = run(f"{TOP}/harness/out/{name}", *front(command), option, *(["--none"] if has and not has[0].value else []))
                why = NOTHING if has and has[0].value else "--none: " + NONE if has else (OTHER if option in table_of(name) else NONE)
                tell(f"{name} {command} {option}: its status, and what is said", (status, why if why in said else said), (2, why))


def shown(room):
    """man shows each page without a warning, and each command of bin has one."""
    if not shutil.which("man"):
        return skip("man", "it isn't installed")
    for name, text in manuals().items():
        write(f"{room}/{name}.1", text)
        ran = subprocess.run(["man", "--warnings", "-l", f"{room}/{name}.1"], capture_output=True, text=True, env={**os.environ, "LC_ALL": "C.UTF-8", "MANWIDTH": "80"})
        tell(f"{name}(1): what man warns of", (ran.returncode, ran.stderr), (0, ""))
        tell_has(f"{name}(1): it is shown", re.sub(r"\s+", " ", ran.stdout), f"NAME {name} - {NAMES[name][0]}")
    world = re.sub(r"\s+", " ", ran.stdout if name == "fiocut-world" else subprocess.run(["man", "-l", f"{room}/fiocut-world.1"], stdout=subprocess.PIPE, text=True, env={**os.environ, "LC_ALL": "C.UTF-8", "MANWIDTH": "80"}).stdout)
    with open(f"{TOP}/docs/SCRIPTS.md", encoding="utf-8") as it:
        rows = re.findall(r"^\| `([a-z]+)[^|]*\|", it.read(), re.M)
    tell("fiocut-world(1): the commands of scripts", [it for it in rows if it not in world], [])


def completed(room):
    """The completions of bash and zsh are read, and bash completes by them."""
    for path, text in completions().items():
        write(f"{room}/{path}", text)
        shell = "bash" if path.startswith("bash") else "zsh"
        if shutil.which(shell):
            tell(f"{path}: {shell} reads it", run(shell, "-n", f"{room}/{path}"), (0, "", ""))
    if not shutil.which("zsh"):
        skip("zsh", "it isn't installed")
    for line, due in (("drive-target wr", "write"), ("drive-target write j t s --qu", "--queue"), ("drive-target check j t s --qu", ""), ("drive-agent t --at", "--atomic"), ("fleet check --ma", "--map"), ("fleet-server link --so", "--socket"), ("fleet-server link --fl", ""), ("fiocut wo", "world")):
        name, words = line.split()[0], line.split()
        script = f'. "{room}/bash-completion/completions/{name}"; COMP_WORDS=({" ".join(words)}); COMP_CWORD={len(words) - 1}; _{re.sub("-", "_", name)}; echo "${{COMPREPLY[*]}}"'
        tell(f"{line}: how bash completes it", run("bash", "-c", script)[1].split()[:1], due.split())
