"""Finds what a call's contract says if it is Ok, of an error, and whatever it returns, for tools/contract."""
import re

from cited import is_of_kit, words_in
from refusals import chosen_by, is_chosen, is_record
from statements import alternatives, closes_at, factors, handed_to, one_line, parts_between, parts_of, split_at, stripped

OF_ITS_KIND = re.compile(r"\b(?:IfOk|OnOk|IfErr|OnErr|MatchResult|IfSome result|IfNone result|ForOk|ForErr|Ok|Err)\b")
BY_RESULT = re.compile(rf"{OF_ITS_KIND.pattern}|\bresult\b")
IF_OK = re.compile(r"\b(?:IfOk|OnOk|MatchResult|ForOk|Ok)\b")
IF_ERROR = re.compile(r"\b(?:IfErr|OnErr|MatchResult|ForErr|Err)\b")
BY_PATTERN = re.compile(r"\((?:Ok|Err)\b")
NAMED = re.compile(r"ensures (\w+) \{")
SIGN = re.compile(r"[≡≢≤<↔⊥]")


def ensured(clauses):
    return [clause for clause in clauses if "ensures" in clause.lines[0]]


def name_of(clause):
    found = NAMED.search(clause.lines[0])
    return found[1] if found else f"of line {clause.line}"


def inside(clause):
    """What stands between the braces of a clause."""
    return re.sub(r"^(?:ensures|requires)(?: \w+)? \{ ?| ?\};?$", "", text_of(clause))


def is_claim(word):
    """Whether a word of specs says something of what it is handed."""
    head = parts_of(word)[0]
    is_type = re.search(rf"(?:record|data) {re.escape(word.name)} : Type 0", head) and "module _" not in head
    return bool(re.search(r"Type 0(?: where)?$", head.strip())) and not is_type


def says_something(field):
    """Whether a field is a claim, and not a value that the others speak of."""
    claims = [word for word in cited_by(field) if is_claim(word) and re.search(r"[({→]", parts_of(word)[0])]
    return bool(SIGN.search(split_at(field.code())[1]) or claims)


def is_handed_result(word):
    return not is_of_kit(word.path) and is_claim(word) and bool(re.search(r"\bResult\b", handed_to(word)))


def cited_by(statement):
    path = None if statement.path.endswith(".rt") else statement.path
    return [word for word in words_in(split_at(statement.code())[1], statement.uses, path) if word]


def is_sure(text, word):
    """Whether a text says a word of something without a condition."""
    said = [factor for factor in factors(text) if len(parts_between(factor, "→")) == 1]
    return len(alternatives(text)) == 1 and any(re.match(rf"\(?{re.escape(word.name)}\b", each.strip()) for each in said)


def is_of_error(statement, word):
    """Whether a statement of a word that is handed the result is of an error alone."""
    before, behind = split_at(statement.code())
    return bool(re.search(r"\(Err\b", before) or is_record(word) and IF_ERROR.search(behind) and not IF_OK.search(behind))


def is_of_ok(statement, word):
    before, behind = split_at(statement.code())
    return bool(re.search(r"\(Ok\b", before) or is_record(word) and re.search(r"\b(?:IfOk|OnOk)\b", behind))


class Outcomes:
    """What the clauses of a call say if it is Ok, what of an error, and what they say whatever it returns."""

    def __init__(self, clauses, words):
        ensures = ensured(clauses)
        self.chosen = chosen_by(clauses)
        handed = {clause: [word for word in cited_by(clause) if is_handed_result(word)] for clause in ensures}
        plain = [clause for clause in ensures if not handed[clause]]
        # The clauses that say it without a word that is handed the result; and those whose word isn't of this repository.
        self.clauses = [clause for clause in plain if not BY_RESULT.search(clause.code())]
        self.clauses_by_result = [clause for clause in plain if re.search(r"\bresult\b", clause.code())
                                  and not OF_ITS_KIND.search(clause.code())]
        self.clauses_if_ok = [clause for clause in plain if IF_OK.search(clause.code()) or clause in self.clauses_by_result]
        # The statements of the words that are handed the result. Each of `cases` is a record that holds in some case.
        self.if_ok, self.if_error, self.fields, self.cases = [], [], [], []
        sure = {word: True for clause, those in handed.items() for word in those if is_sure(inside(clause), word)}
        self.walk({**{word: False for word in words if is_handed_result(word)}, **sure})

    def walk(self, words):
        seen = set()
        while words:
            word = max(words, key=words.get)
            is_always = words.pop(word)
            if (word.path, word.line) not in seen:
                seen.add((word.path, word.line))
                for found, is_still in self.word(word, is_always).items():
                    words[found] = words.get(found, False) or is_still

    def word(self, word, is_always):
        """Notes the statements of a word that is handed the result, and returns the words that are handed it on."""
        following, fields = {}, []
        statements = [each for each in parts_of(word)[2] if is_chosen(each, self.chosen, "Result")]
        others = [each for each in statements if not BY_PATTERN.search(split_at(each.code())[0])]
        is_one = is_always and (is_record(word) or len(others) == 1)
        for statement in statements:
            handed = [each for each in cited_by(statement) if is_handed_result(each)]
            if is_of_error(statement, word):
                self.if_error.append(statement)
            elif is_of_ok(statement, word):
                self.if_ok.append(statement)
            elif handed:
                following.update({each: is_one and is_sure(split_at(statement.code())[1], each) for each in handed})
            elif is_record(word) and says_something(statement):
                fields.append(statement)
        self.fields += fields if is_always else []
        self.cases += [(word, fields)] if fields and not is_always else []
        return following


def arguments_in(text):
    """The arguments at the beginning of a text: names, and what stands in brackets."""
    found, text = [], text.strip()
    while argument := re.match(r"[^\s(){}→×⊎]+", text) or text.startswith("("):
        end = closes_at(text) + 1 if argument is True else argument.end()
        found.append(text[:end])
        text = text[end:].lstrip()
    return found


def parameters_of(word, chosen):
    """The names that a word gives to what it is handed, by its head, or by its first equation that is meant."""
    head, _, equations = parts_of(word)
    if is_record(word):
        return [name for names in re.findall(r"\(([\w ]+) : ", head.partition(word.name)[2]) for name in names.split()]
    before = next((split_at(each.code())[0] for each in equations if is_chosen(each, chosen)), "")
    return arguments_in(before.partition(word.name)[2])


def names_in(clause, word, chosen):
    """What a word calls what a clause hands it, with what that is, but for the result."""
    before_and_behind = re.split(rf"(?<!\w){re.escape(word.name)} ", text_of(clause), maxsplit=1)
    arguments = arguments_in(before_and_behind[-1]) if len(before_and_behind) > 1 else []
    for name, argument in zip(parameters_of(word, chosen), arguments):
        if re.fullmatch(r"\w+", name) and argument not in (name, "result") and "{" not in argument:
            yield name, stripped(argument)


def clauses_on_errors(clauses):
    return [clause for clause in ensured(clauses) if IF_ERROR.search(clause.code())]


def text_of(statement):
    return one_line(statement.code())
