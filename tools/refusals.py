"""Finds what a call's contract says of each error that it may return, for tools/contract."""
import re
from typing import NamedTuple, Optional

from cited import WORD, Word, is_of_kit, words_in, words_of_word
from specs import uses_in
from statements import Statement, alternatives, factors, handed_to, one_line, parts_of, split_at, stripped

BARE = re.compile(r"\S+ ≡ \S+")
# What can't be, of an error that is named before it.
NEVER = re.compile(r"≡ \(?\w[^→]*→ ⊥$")
OF_AN_ERROR = re.compile(r"\(Err\b|\b(?:other|e|refusal|error)\b")


class Said(NamedTuple):
    """A statement on an error, or the part of it that speaks of it."""
    statement: Statement
    # That of the word that it is of; None of a clause.
    comment: Optional[str]
    text: str
    word: Optional[Word]
    # Whether it is a field of a record, which is all of this error then.
    is_of_record: bool


def is_record(word):
    return bool(re.search(rf"\brecord {re.escape(word.name)}\b", parts_of(word)[0]))


def scope_of(uses):
    scope = {}
    for here, _, parts, name in uses_in(uses):
        scope.setdefault(here, []).append((parts, name))
    return scope


def named_in(text, uses, errors):
    """The variants that a text names, in its order."""
    scope, found = scope_of(uses), []
    for word in WORD.findall(text):
        first, *behind = word.split(".")
        for parts, name in scope.get(first, []):
            if parts[-2:] == (errors.name, "TheVariants"):
                found.append(name or (behind[0] if behind else ""))
            elif parts[-1] == errors.name and behind:
                found.append(behind[0])
        if first == errors.name and behind:
            found.append(behind[0])
    return list(dict.fromkeys(name for name in found if name in errors.variants))


def constructors_in(text, uses, before=""):
    """The constructors that a text names, by their types."""
    scope, found = scope_of(uses), {}
    for word in re.findall(rf"{before}({WORD.pattern})", text):
        first, *behind = word.split(".")
        for parts, name in scope.get(first, []):
            if parts[-1] == "TheVariants" and (name or behind):
                found.setdefault(parts[:-1], set()).add(name or behind[0])
    return found


def chosen_by(clauses):
    """The constructors that clauses hand to words, by their types."""
    chosen = {}
    for clause in clauses:
        for kind, names in constructors_in(clause.code(), clause.uses, r"\(").items():
            chosen.setdefault(kind, set()).update(names)
    return chosen


def is_chosen(statement, chosen, besides=None):
    """Whether an equation may be of what clauses hand it, by their constructors; those of one type aside."""
    there = constructors_in(split_at(statement.code())[0], statement.uses)
    return all(names & chosen[kind] for kind, names in there.items() if kind in chosen and kind[-1] != besides)


class Told:
    """What the words that speak of a type of errors say of each."""

    def __init__(self, clauses, words, errors):
        self.errors = errors
        # The words that are handed an error, each with its comment.
        self.ways = []
        self.lists, self.others, self.by_error = [], [], {}
        # The statements that cite a word, by its place.
        self.citing = {}
        # What is said never to come, by what, and which of these some statement has nevertheless.
        self.never, self.overruled = {}, set()
        self.chosen = chosen_by(clauses)
        self.words = [word for word in words if word]
        ruled = set()
        for clause in clauses:
            if "requires" not in clause.lines[0]:
                self.statement(clause, None, None, frozenset())
                ruled |= self.ruled_by(clause)
        self.closure([(word, frozenset(ruled)) for word in self.words])

    def closure(self, words):
        seen = {}
        while words:
            following = []
            for word, ruled in words:
                before = seen.setdefault((word.path, word.line), [])
                if not any(earlier <= ruled for earlier in before):
                    following += self.word(word, ruled, not before)
                    before.append(ruled)
            words = following

    def word(self, word, ruled, is_new):
        """Notes the statements of a word that is handed an error, and returns the words that they cite."""
        _, comment, statements = parts_of(word)
        if not word.path.endswith(".antt") or not re.search(rf"\b{self.errors.name}\b", handed_to(word)):
            return []
        if is_new:
            self.ways.append((word, comment))
        if is_record(word):
            ruled = ruled.union(*(self.ruled_out(split_at(field.code())[1], field) for field in statements))
        following = []
        for statement in filter(self.is_meant, statements):
            self.statement(statement, comment, word, ruled)
            for part in alternatives(split_at(statement.code())[1]):
                out = ruled | self.ruled_out(part, statement)
                cited = [each for each in words_in(part, statement.uses, word.path) if each and not self.rules_out(each)]
                for each in cited:
                    self.citing.setdefault((each.path, each.line), []).append(statement)
                following += [(each, out) for each in cited]
        return following

    def is_meant(self, statement):
        """Whether it may hold of an error, and of what the call's clauses hand it."""
        return not re.search(r"\(Ok\b", split_at(statement.code())[0]) and is_chosen(statement, self.chosen, self.errors.name)

    def rules_out(self, word):
        """The errors that never come where this word holds."""
        statements = parts_of(word)[2]
        if not statements or not all(NEVER.search(one_line(each.code())) for each in statements):
            return set()
        return {name for each in statements for name in named_in(each.code(), each.uses, self.errors)}

    def ruled_out(self, text, statement):
        """The errors that never come where this text holds, which is of a statement."""
        out = set()
        for factor in factors(text):
            first = WORD.match(stripped(factor))
            for word in words_in(first[0], statement.uses, statement.path) if first and "→" not in factor else ():
                out |= self.rules_out(word) if word else set()
        for name in out:
            self.never.setdefault(name, statement)
        return out

    def ruled_by(self, clause):
        """The errors that a clause says never to come."""
        found = re.search(r"\bIfErr result (\w+) }", one_line(clause.code()))
        return self.ruled_out(found[1], clause) if found else set()

    def statement(self, statement, comment, word, ruled):
        before, behind = split_at(statement.code()) if comment is not None else ("", statement.code())
        at_head = named_in(before, statement.uses, self.errors)
        named = named_in(statement.code(), statement.uses, self.errors)
        if not named:
            if comment is not None and stripped(behind) == "⊥" and OF_AN_ERROR.search(before):
                self.others.append((statement, one_line(statement.code())))
            return
        whole = one_line(statement.code())
        if at_head or comment is None:
            if comment is None and len(named) > 2:
                self.lists.append((statement, named))
            else:
                for name in named:
                    self.add(name, Said(statement, comment, whole, word, False), ruled)
            return
        parts = alternatives(behind)
        if len(parts) > 1 and all(map(BARE.fullmatch, parts)):
            self.lists.append((statement, named))
            return
        for part in parts:
            text = one_line(part) if len(parts) > 1 else whole
            is_of_record = is_record(word) and bool(BARE.fullmatch(part))
            for name in named_in(part, statement.uses, self.errors):
                self.add(name, Said(statement, comment, text, word, is_of_record), ruled)

    def add(self, name, said, ruled):
        if name in ruled:
            self.overruled.add(name)
        elif said not in self.by_error.setdefault(name, []):
            self.by_error[name].append(said)

    def named(self):
        """The errors that some statement names."""
        return {*self.by_error, *(name for _, names in self.lists for name in names)}

    def never_comes(self):
        """The errors of which it is said that they never come, each with what says it."""
        return {name: self.never[name] for name in self.overruled - set(self.by_error) if name in self.never}


def named_below(told):
    """The statements that name an error in any word that is cited, however far down. These are handed none by name."""
    seen, words = set(), told.words
    while words:
        following = []
        for word in words:
            if (word.path, word.line) in seen or is_of_kit(word.path):
                continue
            seen.add((word.path, word.line))
            for statement in parts_of(word)[2]:
                if named_in(statement.code(), statement.uses, told.errors):
                    yield statement
            following += [each for each in words_of_word(word) if each]
        words = following


def got_by(told, said):
    """The statements by which a word got the claims that this part of it has by a name alone."""
    statement = said.statement
    before = split_at(statement.code())[0]
    scope = scope_of(statement.uses)
    claims = [word for word in re.findall(r"(?<![\w.])[A-Z]\w+", said.text)
              if word not in scope and word != statement.owner and re.search(rf"(?<!\()\b{word}\b", before)]
    if not claims or statement.owner == "clause":
        return []
    return [citing for (path, line), all_of_it in told.citing.items() if path == statement.path
            and any(word.name == statement.owner and word.line == line for word, _ in told.ways)
            for citing in dict.fromkeys(all_of_it) if citing.owner != statement.owner][:3]
