"""Reads a script, and what is printed of it: each command with its answer.

The lines of both are those that docs/SCRIPTS.md tells of. Behind the answers stands a line
`frame N HEX` for each frame that was sent, and a line `saved C RUN SERVER JOB HEX`, or `none` in
place of HEX, for each change of what the client's note shows, with the number of its command.
"""

from typing import NamedTuple

from judging.verdict import Unreadable


class Step(NamedTuple):
    """A command with the text below it, its answer, and what stands below that: the words of each
    frame that was sent, and each server that asks for its cut."""

    words: list
    text: str
    answer: list
    sent: list
    cuts: list

    def does(self, *words):
        """The command begins with these words and wasn't refused."""
        return self.words[:len(words)] == list(words) and self.answer[0] == "ok"

    def gives(self, *words):
        """The command is answered by a write, and begins with `issue` and these words."""
        return self.does("issue", *words) and self.answer[1] == "write"


class Output(NamedTuple):
    """What is printed of a script: the answers, each with what stands below it; the bytes of each
    frame; and each change of what the client's note shows, as its command, the key, and the bytes
    of the state or None."""

    answers: list
    frames: list
    changes: list


# The second word of each answer that has one.
ANSWERS = {"begin": ("run",), "verify": ("attempt",), "check": ("report",),
           "issue": ("write", "full", "held", "overlap", "finished", "stopped")}


def read_commands(script):
    """The commands of a script, each with its words and its text."""
    commands, lines = [], iter(script.split("\n"))
    for line in lines:
        words = line.replace("\t", " ").split(" ")
        words = [word for word in words if word]
        if not words or words[0].startswith("#"):
            continue
        text = []
        behind = words[1:] if words[0] in ("cutold", "cutnew") else words
        if behind and behind[0] in ("begin", "verify"):
            for below in lines:
                if below == ".":
                    break
                text.append(below + "\n")
        words = [str(int(word)) if word.isascii() and word.isdigit() else word for word in words]
        commands.append((words, "".join(text)))
    return commands


def read_output(output):
    """The parts of an output."""
    read = Output([], [], [])
    for line in output.rstrip("\n").split("\n"):
        words = line.split(" ")
        if words[0] == "frame":
            if words[1] != str(len(read.frames)):
                raise Unreadable(f"frame {words[1]} is shown in place of {len(read.frames)}")
            read.frames.append(bytes.fromhex(words[2]))
        elif words[0] == "saved":
            read.changes.append(read_change(words))
        elif words[0] == "sent":
            read.answers[-1][1].append(words[1:])
        elif words[:2] == ["act", "cut"]:
            read.answers[-1][2].append(words[2])
        else:
            read.answers.append((words, [], []))
    return read


def read_change(words):
    """A change of what the note shows: `saved C RUN SERVER JOB` and bytes, or `none`."""
    command, *key = (int(word) for word in words[1:5])
    return command, tuple(key), None if words[5:] == ["none"] else bytes.fromhex(words[5])


def read_steps(script, output):
    """The commands with their answers, and the output of which these are."""
    read = read_output(output)
    answers, commands = read.answers, read_commands(script)
    last = answers[-1][0] if answers else [""]
    is_short = last[0] in ("bad", "too") or last[:2] == ["refused", "35"]
    if len(answers) > len(commands) or (len(answers) < len(commands) and not is_short):
        raise Unreadable(f"{len(commands)} commands have {len(answers)} answers")
    steps = [Step(words, text, *answer) for (words, text), answer in zip(commands, answers)]
    for step in steps:
        told = ANSWERS.get(step.words[0], ("",))
        if step.answer[0] == "ok" and (step.answer + [""])[1] not in told:
            raise Unreadable(f"{' '.join(step.words)} is answered by {' '.join(step.answer)}")
    return steps, read
