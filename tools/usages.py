"""What commands take: their own tables of options and their own usage, out of the sources of each, and
from these what each option has behind it, and what is said of it."""
import argparse
import ast
import importlib.machinery
import importlib.util
import re
import subprocess
from collections import namedtuple

from provenance import TOP

# An option: its name, what stands behind it, or nothing, what is said of it, and which commands have it.
Option = namedtuple("Option", "name value says commands")
# A usage: how it is called, a line each with what that does; options, by the heading that they stand
# under; and the lines before and behind those.
Usage = namedtuple("Usage", "calls groups before behind")
# Where the tables and usages of the harness's programs are.
SOURCES = {"drive-target": "harness/target/options.c", "drive-agent": "harness/agent/main.c", "drive-witness": "harness/witness/options.c", "fleet-server": "harness/server/options.c"}
ROW = re.compile(r'\{"(--[a-z-]+)", ([^,]+), ([^,]+), ([^,]+), ([^}]+)\}')
LINE = re.compile(r"  (--[a-z-]+)(?: ([A-Z][A-Za-z.]*))?  +(\S.*)")
# A second option that a line tells of.
SECOND = re.compile(r"(.*); (--[a-z-]+) ([A-Z]+): (.*)")


def text_of(path):
    with open(f"{TOP}/{path}", encoding="utf-8") as it:
        return it.read()


def usage_text(name):
    """Returns what a program prints where it is asked for help."""
    if name in SOURCES:
        return "".join(ast.literal_eval(it) for it in re.findall(r'^    ("(?:[^"\\]|\\.)*")', text_of(SOURCES[name]).partition("USAGE[] =")[2].partition(";\n\n")[0], re.M))
    words = ["sh", "-c", f'. "{TOP}/release/words.sh" && usage_of_{name}']
    return subprocess.run(words, stdout=subprocess.PIPE, text=True, check=True).stdout


def usage_of(name):
    """Reads a usage."""
    calls, groups, before, behind, heading = [], {}, [], [], ""
    for line in usage_text(name).splitlines():
        call, option = re.match(r"(?:usage:|      ) (\S.*?)(?:  +(\S.*))?$", line), LINE.match(line)
        if call and not groups and call[1].startswith(name):
            calls.append([call[1], call[2] or ""])
        elif option:
            says, second = option[3], SECOND.match(option[3])
            rows = groups.setdefault(heading, [])
            rows.append([option[1], option[2] or "", second[1] if second else says])
            if second:
                rows.append([second[2], second[3], second[4]])
        elif re.fullmatch(r"[a-z, ]+:", line):
            heading = line[:-1]
        elif line.startswith("        ") and groups:
            groups[heading][-1][2] += f" {line.strip()}"
        elif line.startswith("        "):
            calls[-1][1] += f" {line.strip()}"
        else:
            (behind if groups else before).append(line.strip())
    return Usage(calls, groups, before, behind)


def table_of(name):
    """Returns the options of a program of the harness, by its own table: each with whether something
    stands behind it, and the commands that it is for."""
    found = {}
    for option, text, number, _, commands in ROW.findall(text_of(SOURCES[name])):
        words = [it for it in re.findall(r"[A-Za-z_]\w*", commands) if it not in ("MANY", "FROM_1")]
        found[option] = (text != "0" or number != "0", tuple(it.lower() for it in words))
    return found


def parser_of_fleet():
    """Returns the parser of `fleet`, and its text."""
    loader = importlib.machinery.SourceFileLoader("fleet_command", f"{TOP}/harness/fleet")
    module = importlib.util.module_from_spec(importlib.util.spec_from_loader(loader.name, loader))
    loader.exec_module(module)
    return module.words_parser(), module.__doc__


def options_of_fleet():
    """Returns the options of `fleet`, by its parser."""
    parser, found = parser_of_fleet()[0], {}
    commands = next(it.choices for it in parser._actions if isinstance(it, argparse._SubParsersAction))
    for command, of in commands.items():
        for action in of._actions:
            for name in [it for it in action.option_strings if it.startswith("--") and it != "--help"]:
                value = "" if action.nargs == 0 else (action.metavar or name[2:].upper())
                before = found.get(name, Option(name, value, action.help or "", ()))
                found[name] = before._replace(says=before.says or action.help or "", commands=(*before.commands, command))
    return list(found.values()), tuple(commands)


def options_of(name):
    """Returns the options of a program, and its commands."""
    if name == "fleet":
        return options_of_fleet()
    usage = usage_of(name)
    commands = tuple(dict.fromkeys(it[0].split()[1] for it in usage.calls if re.fullmatch(r"[a-z]+", (it[0].split() + [""])[1])))
    if name not in SOURCES:
        inside = re.findall(r"\[(--[a-z-]+) ([A-Z]+)\]", usage_text(name))
        return [Option(option, value, "", ()) for option, value in inside], commands
    told = {row[0]: row for rows in usage.groups.values() for row in rows}
    return [Option(option, told.get(option, ["", "VALUE", ""])[1] if takes else "", told.get(option, ["", "", ""])[2], commands if "all_commands" in of else of) for option, (takes, of) in table_of(name).items()], commands
