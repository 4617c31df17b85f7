"""Makes outputs in which a disk is blamed that was honest: each kind is false by one claim.

Their reports are exact, by a state that counts what was never told done.
"""

from judging.broken_reports import checks, reported
from judging.broken_states import marked
from judging.checks import Check
from judging.draft import Draft
from judging.files import Files
from judging.reports import ways, what_is_checked
from judging.settings import STAMP


def faults_by_a_counted_write(case):
    """The draft, for each check by a state: the state counts a write in flight that isn't in its
    block, and so the check blames the block; with whether a write was torn."""
    files, by_step = Files(case.story), {at: rest for at, *rest in checks(case)}
    for at in range(len(case.story.steps)):
        files.follow(at)
        if at not in by_step:
            continue
        sent, numbers = by_step[at]
        key = (sent.fields["run"], sent.source, str(sent.fields["job"]))
        job = what_is_checked(case.story, at, sent.report)[1]
        states = [it for it in ways(case.story, at, sent.fields, job) if it]
        if key[1:] in files.dishonest or len(states) != 1:
            continue
        for write in sorted(set(range(states[0].issued)) - states[0].counted):
            state = states[0]._replace(counted=states[0].counted | {write})
            check = Check(files, key, job, state)
            blocks, in_flight = check.faulty()
            if any(is_fault and not in_flight[block] for block, is_fault in blocks):
                draft = reported(case, at, sent, numbers, check.report())
                yield draft.state(state.key, marked(states[0], write)), key[1:] in files.torn


def blames_an_honest_disk(case):
    """A fault on an honest disk, in a block to which no write was in flight."""
    for draft, is_torn in list(faults_by_a_counted_write(case))[::-1]:
        if is_torn:
            yield draft


def blames_where_no_write_is_torn(case):
    """A fault on an honest disk, where each write landed whole."""
    for draft, is_torn in faults_by_a_counted_write(case):
        if not is_torn:
            yield draft


def checks_by_a_state(case):
    """The checks by one state, over all blocks of a disk that was honest: the step, the Report, the
    numbers of the frames that say the same, the state, and whether a write of the file was torn."""
    files, by_step = Files(case.story), {at: rest for at, *rest in checks(case)}
    for at in range(len(case.story.steps)):
        files.follow(at)
        if at in by_step:
            sent, numbers = by_step[at]
            job = what_is_checked(case.story, at, sent.report)[1]
            states = ways(case.story, at, sent.fields, job)
            file = (sent.source, str(sent.fields["job"]))
            if len(states) == 1 and states[0] and not job.fatal and file not in files.dishonest:
                yield at, sent, numbers, states[0], file in files.torn


def never_landed(case):
    """The draft, for each check by a state: a write that it counts, the last one to its block, was
    never told done and never landed, and the check blames the block; with whether a write was
    torn."""
    for at, sent, numbers, state, is_torn in checks_by_a_state(case):
        words = (sent.source, str(sent.fields["job"]))
        behind = [it for it in range(case.start_of(state.key, at), at)
                  if tuple(case.story.steps[it].words[1:3]) == words]
        given = {int(step.answer[2]): int(step.answer[4])
                 for step in map(case.story.steps.__getitem__, behind) if step.gives()}
        last = {given[write]: write for write in sorted(state.counted)}
        in_flight = {block for write, block in given.items() if write not in state.counted}
        for block, write in sorted(last.items()):
            if state.settings.verify == STAMP and block not in in_flight | {*sent.report.first}:
                first = tuple(sorted([*sent.report.first, block]))
                draft = reported(case, at, sent, numbers, sent.report._replace(
                    faults=sent.report.faults + 1, first=first))
                for step in behind:
                    if case.story.steps[step].words[3:4] == [str(write)]:
                        draft.answer(step, "refused 83 NoWrite")
                yield draft, is_torn


def blames_what_never_landed(case):
    """A fault on a disk that is honest: the write to its block was never told done."""
    for draft, _ in never_landed(case):
        yield draft


def blames_what_never_landed_untorn(case):
    """A fault on a disk that is honest, where each write that landed did so whole."""
    for draft, is_torn in list(never_landed(case))[::-1]:
        if not is_torn:
            yield draft


def lies(case, key):
    """The steps in which a write of a job was told done that a check by its state blames: nothing
    of it had landed, and no write to its block was in flight at the taking."""
    words, state = (str(key[1]), str(key[2])), case.story.seen[key][1].state
    given = {step.answer[2]: step.answer[4] for step in case.story.steps if step.gives(*words)}
    pending = {block for write, block in given.items() if int(write) not in state.counted}
    for at in case.steps("done", *words):
        write = case.story.steps[at].words[3]
        if int(write) in state.counted and given[write] not in pending and not case.steps(
                "land", *words, write):
            yield at, int(given[write])


def blames_what_was_never_told(case):
    """The one write that isn't there was told done, which was refused: the state counts it, and its
    block is blamed on a disk that is honest by that."""
    for at, sent, _ in checks(case):
        key = (sent.fields["run"], int(sent.source), sent.fields["job"])
        job = what_is_checked(case.story, at, sent.report)[1]
        told = [] if None in ways(case.story, at, sent.fields, job) else list(lies(case, key))
        files = Files(case.story)
        for step in range(at):
            if [step] != [it for it, _ in told]:
                files.follow(step)
        if (len(told) == 1 and told[0][1] in sent.report.first
                and (sent.source, str(key[2])) not in files.dishonest):
            yield Draft(case).answer(told[0][0], "refused 83 NoWrite")


BROKEN_DISKS = (
    ("honest", blames_an_honest_disk),
    ("honest", blames_what_never_landed),
    ("honest", blames_what_was_never_told),
    ("whole", blames_where_no_write_is_torn),
    ("whole", blames_what_never_landed_untorn),
)
