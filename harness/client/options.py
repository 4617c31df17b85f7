"""What the options of `fleet` may have behind them, and what it says of its version and of an option
that it hasn't got."""
import argparse
import math
import os

HERE = os.path.dirname(os.path.realpath(__file__))


def version():
    """Returns the version of fiocut that this is of, by the file beside the harness, where that is."""
    try:
        with open(f"{HERE}/../../VERSION", encoding="utf-8") as it:
            return f"fleet of fiocut {it.read().strip()}, not proved"
    except OSError:
        return "fleet of a fiocut whose VERSION isn't beside it, not proved"


def seconds(word):
    """A number of seconds, from 0 on."""
    value = float(word)
    if not (value >= 0 and math.isfinite(value)):
        raise argparse.ArgumentTypeError(f"{word}: this wants seconds, from 0 on")
    return value


def count(word):
    """A number, from 1 on."""
    value = int(word)
    if value < 1:
        raise argparse.ArgumentTypeError(f"{word}: this wants a number, from 1 on")
    return value


def refuse_strange(parser, words):
    """Refuses the first option that is none of any command, before anything else that is wrong."""
    commands = [it for action in parser._actions if isinstance(action, argparse._SubParsersAction) for it in action.choices.values()]
    known = [option for it in (parser, *commands) for option in it._option_string_actions]
    for it in words:
        name = it.partition("=")[0]
        if name.startswith("--") and not any(option.startswith(name) for option in known):
            parser.error(f"{it}: there is no such option; --help lists them")
