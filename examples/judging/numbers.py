"""Judges the numbers of runs and of attempts: none is told twice."""


def judge_numbers(story, verdict):
    """The claim numbers."""
    for (command, number), steps in story.told.items():
        name = "run" if command == "begin" else "attempt"
        for place in range(len(steps)):
            verdict.judge("numbers", place == 0, f"{name} {number} is told once more")
