"""Tells in lines what a call promises: if it is Ok, of each error, and whatever it returns; for tools/contract."""
import re
import textwrap

from cited import is_of_kit, place, words_in
from outcomes import (IF_ERROR, IF_OK, Outcomes, cited_by, clauses_on_errors, ensured, inside, is_claim,
                      is_handed_result, name_of, names_in, says_something, text_of)
from refusals import BARE, NEVER, Told, got_by, is_record, named_below, named_in
from specs import indent_of, lines_of
from statements import meant, parts_of
from variants import error_type, errors_named, result_of

# The most lines of a definition that stands below what cites it.
MOST_LINES = 16
# Of a type with so many errors at most it is told which are named nowhere.
MOST_UNNAMED = 8
# The most lines of definitions, and of those on errors, that stand below a contract without being asked for.
MOST_SHORT_LINES = 45
WIDTH = 120
MAY_BE_RULED_OUT = "with its comment, and below when it comes; another clause may rule one out"
# A clause that names the only error, and says no more of it.
ALONE = re.compile(r"(?:.*→ )?(?:IfErr|OnErr) result \(λ (\w+)\. \(?\1 ≡ [\w.]+\)?(?: ⊎ \(*\1 ≡ [\w.]+\)*)*\)")


def wrapped(text, place_of_it="", indent="    "):
    """A text in lines of at most this width, with its place behind it."""
    whole = text + (f"    {place_of_it}" if place_of_it else "")
    return textwrap.wrap(whole, WIDTH, initial_indent=indent, subsequent_indent=indent + "    ", break_long_words=False,
                         break_on_hyphens=False)


def placed(statement):
    return statement.place() if statement.owner == "clause" else f"{statement.owner}, {statement.place()}"


def clauses_named(clauses):
    names = list(dict.fromkeys(map(name_of, clauses)))
    return ("the clause " if len(names) == 1 else "the clauses ") + ", ".join(names)


def body_of(word, is_short=False):
    """The lines of a definition without its head, in short without values that it only names; none if they are many."""
    text = list(word.text)
    own = [line for line in text[text.index(lines_of(word.path)[word.line - 1]):]
           if line.strip() and not line.strip().startswith("--")]
    if re.search(r"\b(?:record|data) ", lines_of(word.path)[word.line - 1]):
        first = next((at for at, line in enumerate(own) if re.search(r"\bwhere$", line)), -1) + 1
        values = {field.lines[0] for field in parts_of(word)[2] if is_record(word) and not says_something(field)}
        own = [line for line in own[first:] if not (is_short and line in values)]
    else:
        own = [line for line in own if not re.match(r" *(?:abbrev |unfoldable |opaque |pub )+", line)]
    depth = min(map(indent_of, own), default=0)
    return [line[depth:].replace("pub ", "", 1) for line in own] if len(own) <= MOST_LINES else []


def is_of_errors_alone(clauses):
    """Whether there are clauses, and each speaks of an error alone."""
    codes = [clause.code() for clause in ensured(clauses)]
    return bool(codes) and all(IF_ERROR.search(code) and not IF_OK.search(code) for code in codes)


def tells_no_cause(said):
    """Whether a statement names an error, and says no more of it."""
    is_clause = said.statement.owner == "clause"
    return bool(ALONE.fullmatch(inside(said.statement)) if is_clause else BARE.fullmatch(said.text))


class Definitions:
    """Tells definitions, each once."""

    def __init__(self, is_short):
        self.is_short = is_short
        # The words that were told, by their places, and those of which that is all.
        self.told, self.whole = set(), []

    def lines(self, words, has_body, indent="      "):
        lines = []
        for word in words:
            at = (word.path, word.line)
            if at in self.told or is_of_kit(word.path) or not word.path.endswith(".antt") or not is_claim(word):
                continue
            comment, body = parts_of(word)[1], body_of(word, self.is_short)
            self.told.add(at)
            lines += wrapped(f"{word.name}: {comment}" if comment else word.name, place(word.path, word.line - 1), indent)
            if body and (has_body or not comment):
                self.whole.append(word)
                lines += [indent + "    " + line for line in body]
        return lines

    def few_lines(self, words):
        """The lines of these with their bodies, unless these are many."""
        before = set(self.told), list(self.whole)
        lines = self.lines(words, True)
        if len(lines) <= MOST_SHORT_LINES:
            return lines
        self.told, self.whole = before
        return self.lines(words, False)


class Promise:
    """What a call promises. In short it leaves out what stands in the clauses, which are printed above it."""

    def __init__(self, call, clauses, words, is_short):
        self.call, self.clauses, self.is_short = call, clauses, is_short
        self.words = [word for word in words if word]
        self.outcomes = Outcomes(clauses, self.words)
        self.definitions = Definitions(is_short)
        self.kind = error_type(call)
        names = re.findall(r"\b[A-Z]\w*", result_of(call) if self.kind is None else self.kind)
        types = (errors_named(call, name) for name in names)
        self.told = [Told(clauses, self.words, each) for each in types if each]

    def lines(self):
        return [*self.names(), *(self.if_ok() if self.is_short else []), *self.errors(), *self.always(), *self.cases()]

    def names(self):
        """What the words that are handed the result or an error call what a clause hands them."""
        ways = {(word.path, word.line) for told in self.told for word, _ in told.ways}
        found = {}
        for clause in ensured(self.clauses):
            for word in cited_by(clause):
                if is_handed_result(word) or (word.path, word.line) in ways and is_claim(word):
                    for name, argument in names_in(clause, word, self.outcomes.chosen):
                        found.setdefault(name, argument)
        told = ", ".join(f"{name} is {argument}" for name, argument in found.items())
        return [*wrapped(f"Below, {told}.", "", ""), ""] if told else []

    def if_ok(self):
        if self.kind is None:
            return []
        said = self.outcomes.if_ok
        lines = [line for statement in said for line in wrapped(meant(text_of(statement)), statement.place())]
        words = [word for statement in [*said, *self.outcomes.clauses_if_ok] for word in cited_by(statement)]
        lines += self.definitions.few_lines(words)
        clauses = [f"    {clauses_named(self.outcomes.clauses_if_ok)}, above"] if self.outcomes.clauses_if_ok else []
        if not clauses and not lines and is_of_errors_alone(self.clauses):
            return ["If it is Ok, no clause speaks of it: it promises nothing.", ""]
        return ["If it is Ok:", "", *clauses, *lines, ""] if clauses or lines else []

    def always(self):
        clauses = self.outcomes.clauses
        lines = [line for field in self.outcomes.fields for line in wrapped(text_of(field), placed(field))]
        if not self.is_short:
            lines += [line for clause in clauses for line in wrapped(text_of(clause), clause.place())]
        elif clauses:
            lines = [f"    {clauses_named(clauses)}, above", *lines]
        return ["Whatever it returns:", "", *lines, ""] if lines and self.kind else []

    def cases(self):
        """The records that hold in some case of what is returned."""
        lines = []
        for word, fields in self.outcomes.cases:
            lines += wrapped(f"{word.name}: {parts_of(word)[1]}", place(word.path, word.line - 1))
            lines += [line for field in fields for line in wrapped(text_of(field), "", "        ")]
        return ["As the case may be:", "", *lines, ""] if lines and self.kind else []

    def errors(self):
        if self.kind is None:
            lines = [line for told in self.told if told.by_error for line in ErrorLines(self, told, "By its answer").lines()]
            return lines or ["It returns no error.", ""]
        speaking = [*clauses_on_errors(self.clauses), *self.outcomes.clauses_by_result]
        ways = {(word.path, word.name) for told in self.told for word, _ in told.ways}
        general = [each for each in self.outcomes.if_error if (each.path, each.owner) not in ways]
        if not speaking and not general and not ways:
            besides = " but what holds whatever it returns" if self.outcomes.clauses or self.outcomes.fields else ""
            return [f"Its error is {self.kind}. No clause speaks of it: it promises nothing{besides}.", ""]
        if self.told and ways or any(told.named() for told in self.told):
            is_bare = not ways and not general and all(ALONE.fullmatch(inside(clause)) for clause in speaking)
            says_more = self.outcomes.clauses or self.outcomes.fields
            return [*self.of_types(self.told), *(["What an error leaves no clause says.", ""] if is_bare and not says_more else [])]
        return self.of_other(speaking, general)

    def of_other(self, clauses, equations):
        """The lines on an error that has no names, or of which none is named."""
        lines = [f"    {clauses_named(clauses)}, above"] if clauses and self.is_short else []
        if not self.is_short:
            lines = [line for clause in clauses for line in wrapped(text_of(clause), clause.place())]
        lines += [line for each in equations for line in wrapped(text_of(each), each.place())]
        words = [word for statement in [*clauses, *equations] for word in cited_by(statement)]
        return [f"If it is an error, {self.kind}:", "", *lines, *self.definitions.lines(words, not self.is_short), ""]

    def of_types(self, found):
        """The lines on these types of errors; in short, what may come alone if they are many."""
        before = set(self.definitions.told), list(self.definitions.whole)
        lines = [line for told in found for line in ErrorLines(self, told, "If it is an error").lines()]
        if not self.is_short or len(lines) <= MOST_SHORT_LINES:
            return lines
        self.definitions.told, self.definitions.whole = before
        names = [told.errors.name_of(name) for told in found for name in told.errors.variants if name in told.named()]
        more = f"tools/contract --errors {self.call.title()} tells when each comes, and what it leaves."
        return ["If it is an error:", "", *wrapped(f"{', '.join(names)}. {more}"), ""]


class ErrorLines:
    """The lines on a type of errors, or of answers."""

    def __init__(self, promise, told, heading):
        self.told, self.errors, self.heading = told, told.errors, heading
        self.is_short, self.definitions = promise.is_short, promise.definitions
        self.clauses = promise.clauses
        self.ways = {(word.path, word.line) for word, _ in told.ways}
        # The places of clauses and the comments that were printed, and what stands below the errors.
        self.shown, self.said, self.below = set(), set(), []

    def lines(self):
        told, never, gap = self.told, self.told.never_comes(), [] if self.is_short else [""]
        lines = [*self.alone()]
        for name in self.errors.variants:
            if name in told.by_error:
                lines += [*self.of_error(name, told.by_error[name]), *gap]
            elif name in never:
                text = f"{self.errors.name_of(name)}: never, by {text_of(never[name])}"
                lines += [*wrapped(text, placed(never[name]), ""), *gap]
            elif name in told.named():
                lines += [f"{self.errors.title(name)} No cause is told.", *gap]
        lines += [""] if told.named() and self.is_short else []
        lines += self.unnamed()
        for statement, text in told.others:
            lines += wrapped(f"No other: {text}", statement.place(), "")
        lines += [""] if told.others else []
        head = f"{self.heading}, of {self.errors.name}, {place(self.errors.path, self.errors.at)} ({MAY_BE_RULED_OUT}):"
        return [head, "", *lines, *self.of_each()]

    def alone(self):
        """The statements that name the only errors there are."""
        lines = []
        for statement, named in self.told.lists:
            numbers = [self.errors.name_of(name) for name in sorted(named, key=list(self.errors.variants).index)]
            owner = f"The clause {name_of(statement)}" if statement.owner == "clause" else statement.owner
            lines += wrapped(f"{owner} has {', '.join(numbers)} alone.", statement.place(), "")
        return [*lines, ""] if lines else []

    def unnamed(self):
        """What there is to tell of errors that no statement names."""
        told = self.told
        if not told.named():
            named = [line for each in named_below(told) for line in wrapped(text_of(each), placed(each))]
            return [*(named or ["No word that it cites names one."]), ""]
        names = [name for name in self.errors.variants if name not in told.named() and name not in told.never_comes()]
        if names and len(self.errors.variants) <= MOST_UNNAMED:
            return [f"No statement that was found names {', '.join(names)}.", ""]
        return []

    def of_error(self, name, said):
        lines, is_bare = [self.errors.title(name)], all(map(tells_no_cause, said))
        for each in sorted(said, key=lambda each: (not NEVER.search(each.text), self.is_clause_of_several(each))):
            lines += self.of_clause(each, is_bare) if each.statement.owner == "clause" else self.of_word(each, is_bare)
        if not self.is_short:
            lines += self.definitions.lines(self.below, True)
            self.below = []
        return lines

    def is_clause_of_several(self, said):
        statement = said.statement
        return statement.owner == "clause" and len(named_in(statement.code(), statement.uses, self.errors)) > 1

    def of_clause(self, said, is_bare):
        clause = said.statement
        self.below += cited_by(clause)
        if self.is_short:
            bare = ", which tells no cause" if is_bare else ""
            return [f"    the clause {name_of(clause)}, above{bare}"]
        if clause.place() in self.shown:
            return wrapped("and the clause above", clause.place())
        self.shown.add(clause.place())
        return [*self.comment(clause.comment), *wrapped(said.text, clause.place())]

    def of_word(self, said, is_bare):
        statement = said.statement
        if said.is_of_record and body_of(said.word):
            return self.definitions.lines([said.word], True, "    ")
        if self.is_short and said.text.endswith("= Unit {0}"):
            return []
        words = [word for word in words_in(said.text, statement.uses, statement.path)
                 if word and (word.path, word.line) not in self.ways]
        is_told = self.is_short and any(is_claim(word) and parts_of(word)[1] for word in words)
        lines = [] if is_told else self.comment(statement.comment or said.comment or "")
        bare = ", for no cause that is told" if is_bare else ""
        never = "not at all where this is kept: " if NEVER.search(said.text) else ""
        text = meant(said.text) if self.is_short and is_claim(said.word) else said.text
        lines += wrapped(never + text + bare, statement.place() if self.is_short else placed(statement))
        self.below += words
        for handed in got_by(self.told, said):
            lines += wrapped(f"handed to it: {text_of(handed)}", placed(handed), "      ")
            self.below += cited_by(handed)
        return lines

    def comment(self, text):
        """The lines of a comment, unless it was printed."""
        if not text or text in self.said:
            return []
        self.said.add(text)
        return wrapped(f"-- {text}")

    def of_each(self):
        """What is said of each error by a clause; then the words that say what holds, and those by whose way they come."""
        clauses = [clause for clause in clauses_on_errors(self.clauses)
                   if not named_in(clause.code(), clause.uses, self.errors) and clause.place() not in self.shown]
        lines = []
        if clauses and self.is_short:
            lines = [f"Of each error: {clauses_named(clauses)}, above", ""]
        elif clauses:
            lines = ["Of each error:", *[line for clause in clauses for line in [*self.comment(clause.comment),
                                                                                *wrapped(text_of(clause), clause.place())]], ""]
        self.below += [word for clause in clauses for word in cited_by(clause)] if self.is_short else []
        below = self.definitions.lines(self.below, False, "    ")
        lines += ["In these words:", *below, ""] if below else []
        ways = [word for word, comment in self.told.ways if comment and is_record(word) and not is_handed_result(word)]
        told = [] if self.is_short else self.definitions.lines(ways, True, "    ")
        return [*lines, *(["By way of:", *told, ""] if told else [])]
