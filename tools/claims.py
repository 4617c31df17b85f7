"""What each claim rests on, as docs/definitions.txt names the claims and the words that needn't be
unfolded: which definitions its contract is made of, and how many are left where each of these words
stands for what a public function answers. tools/make-definitions uses it, and tools/test-tools
tests it."""
import functools, re

from read_contracts import Contract, is_answer
from read_specs import places

# A function and its clause, the definitions that lead from there to the word, what the word is, and
# how it can be tried.
NAMED = re.compile(r"([\w, ']+): ((?:\w+::)+\w+), (?:its clause|clause (\w+))(?:, by ([\w., ']+))?: (.+); try (.+)")


@functools.lru_cache(None)
def contract_of(function):
    return Contract(function)


class Named:
    """A word that a contract ties to what a public function answers, and how it can be tried. Where
    it is `shown`, it is named in the claims of what is shown alone."""

    def __init__(self, word, function, clause, chain, text, trial, is_shown):
        self.word, self.function, self.clause = word, function, clause
        self.chain, self.text, self.trial, self.is_shown = chain, text, trial, is_shown

    def promised_by(self):
        return f"{self.word[0]}::{self.function}"

    def faults(self, names):
        """Why its contract doesn't tie it to an answer."""
        word = ".".join(self.word)
        if not is_definition(names, self.word):
            return [f"{word} is no definition"]
        contract = contract_of(self.promised_by())
        if contract.fault:
            return [f"{word}: {contract.fault}"]
        if self.clause not in contract.clauses:
            return [f"{word}: {self.function} has no clause {self.clause or 'without a name'}"]
        text = contract.clauses[self.clause]
        if not is_answer(text):
            return [f"{word}: that clause of {self.function} says nothing of what it answers or leaves"]
        steps, named = [*self.chain, self.word], set(contract.named_by(names, text))
        for step in steps:
            if step not in named:
                return [f"{word}: what {self.function} promises there doesn't name {'.'.join(step)}"]
            named = set(names.named_by(step))
        return []


class Claim:
    """A claim: what it is called, a sentence of its contract, and the public functions that promise
    it; which of their clauses and words are left out, and in which files it stands, where that is
    narrowed; and how many definitions and lines it may be made of, where that is bounded."""

    def __init__(self, title):
        self.title, self.says, self.of, self.but, self.where, self.most = title, "", [], [], [], None
        self.is_shown = False

    def contracts(self):
        return [(function, contract_of(function)) for function in self.of]

    def roots(self, names):
        """The definitions that its clauses name."""
        found = set()
        for _, contract in self.contracts():
            for clause, text in contract.clauses.items():
                found.update(contract.named_by(names, text) if clause not in self.but else [])
        return {each for each in found if each[2] not in self.but and (not self.where or each[:2] in self.where)}

    def whole(self, names):
        return names.made_of(self.roots(names))

    def left(self, names, words):
        """What is left where these words aren't unfolded, and which of them are met. What its own
        functions name or answer is unfolded."""
        roots, met = self.roots(names), set()
        others = {each.word for each in words if each.promised_by() not in self.of and (self.is_shown or not each.is_shown)}
        return names.made_of(roots, others - roots, met), met

    def faults(self, names, words):
        found, left_out, comments = [], {*self.but}, []
        for function, contract in self.contracts():
            found += [f"claim {self.title}: {function}: {contract.fault}"] if contract.fault else []
            comments.append(contract.comment)
            left_out -= {*contract.clauses, *(each[2] for text in contract.clauses.values() for each in contract.named_by(names, text))}
        found += [f"claim {self.title}: no clause and no word of it is {each}" for each in sorted(left_out)]
        found += [f"claim {self.title}: there is no {'.'.join(each)}" for each in self.where if each not in names.files]
        if found:
            return found
        whole, (left, _) = self.whole(names), self.left(names, words)
        if not whole:
            return [f"claim {self.title}: it is made of no definition"]
        comments += [row.says for place in places(whole) for row in names.files[place].rows() if any((*place, name) in whole for name in row.names)]
        if not self.says or not any(self.says in each for each in comments):
            found.append(f"claim {self.title}: no comment of its functions and definitions has: {self.says}")
        if self.most and (len(left) > self.most[0] or names.lines(left) > self.most[1]):
            found.append(f"claim {self.title}: it is made of {len(left)} definitions and {names.lines(left)} lines, and not of at most {self.most[0]} and {self.most[1]}")
        return found


def is_definition(names, definition):
    crate, file, name = definition
    return (crate, file) in names.files and names.files[crate, file].own.get(name) == name


def word_at(crate, file, text):
    """The definition of `File.name`, or of a name in this file."""
    there, dot, name = text.rpartition(".")
    return (crate, there if dot else file, name)


def named_in(line, crate, file, is_shown):
    """The words of a line `named` or `shown` of definitions.txt."""
    found = NAMED.fullmatch(line)
    if not found:
        return None
    words, function, clause, chain, text, trial = found.groups()
    chain = [word_at(crate, file, each) for each in chain.split(", ")] if chain else []
    return [Named((crate, file, word), function, clause or "", chain, text, trial, is_shown) for word in words.split(", ")]


def faults_of(claims, words, names):
    """What is wrong with the claims and the words."""
    found = [fault for each in words for fault in each.faults(names)]
    listed = [each.word for each in words]
    found += [f"{'.'.join(each)} is named {listed.count(each)} times" for each in sorted({*listed}) if listed.count(each) > 1]
    if not found:
        found = [fault for claim in claims for fault in claim.faults(names, words)]
    if not found:
        met = set().union(*(claim.left(names, words)[1] for claim in claims))
        found = [f"{'.'.join(each)} is named, and no claim meets it" for each in listed if each not in met]
    return found


def numbers(names, definitions):
    return f"{len(definitions):,} / {names.lines(definitions):,} / {len(places(definitions))}"


def way_to(met, left, words):
    """The definitions that lead from the clauses to the words that are met, but for those that are
    left."""
    return {step for each in words if each.word in met for step in each.chain} - left


def functions_of(claim):
    return ", ".join(f"`{function.rpartition('::')[2]}`" for function in claim.of)


def table_of(claims, words, names):
    """The table of what each claim rests on, for docs/VERDICT.md."""
    made = "| Claim | In the words of its contract | Contract | Definitions / lines / files | Down to named words | These words, and the way to them |\n|---|---|---|---|---|---|\n"
    for claim in claims:
        left, met = claim.left(names, words)
        crate = claim.of[0].partition("::")[0]
        cells = [claim.title, claim.says, f"{functions_of(claim)} of `{crate}`", numbers(names, claim.whole(names)), numbers(names, left)]
        cells.append(f"{len(met)}, by {numbers(names, way_to(met, left, words))}" if met else "none")
        made += "| " + " | ".join(cell.replace("|", "\\|") for cell in cells) + " |\n"
    return made
