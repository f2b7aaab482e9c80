#!/usr/bin/env python3
"""A plain reference of `chr run`, by the definitions of docs/language.md and docs/semantics.md. It shares no code with the crates.

  tests/reference.py RULES POSTS   prints what `chr run RULES POSTS` is to print; the run must end, and both texts must be
                                   right, but for terms past a limit, which it refuses
  tests/reference.py               compares it with expected.txt of each example

It goes through all labels of the store where the program uses indexes, so it is slow. With no arguments the last line is
'N passed, M failed'.
"""
import dataclasses
import operator
import pathlib
import re
import sys

EXAMPLES = pathlib.Path(__file__).resolve().parent.parent / "examples"
LAYOUT = re.compile(r"(?:\s|%[^\n]*|/\*.*?\*/)*", re.S)
TOKEN = re.compile(r"([a-z]\w*)|([A-Z_]\w*)|(\d+)|(:-|<=>|=:=|=\\=|\\==|==|=<|>=|//|[<>(),|@\\/+*.-])")
WORDS = ("is", "mod", "rem")
RANGE = range(-(2**63), 2**63)
ORDER = {"<": operator.lt, "=<": operator.le, ">": operator.gt, ">=": operator.ge, "=:=": operator.eq, "=\\=": operator.ne}
FACTORS, SUMMANDS = ("*", "//", "mod", "rem"), ("+", "-")
MOST_DEPTH, MOST_SIZE, MOST_TERMS = 8, 64, 8


@dataclasses.dataclass(frozen=True)
class Variable:
    name: str


@dataclasses.dataclass(frozen=True)
class Compound:
    functor: str
    terms: tuple


class TooMany(Exception):
    """A term of a text is past a limit (E07)."""


def tokens_of(text):
    """Returns the tokens, each a kind (name, variable, number or mark) and a value."""
    found, at = [], LAYOUT.match(text).end()
    while at < len(text):
        token = TOKEN.match(text, at)
        at = token.end()
        name, variable, number, mark = token.groups()
        ends_operand = found and (found[-1][0] != "mark" or found[-1][1] == ")")
        if mark == "-" and not ends_operand and text[at : at + 1].isdigit():
            digits = re.match(r"\d+", text[at:])[0]
            found.append(("number", -int(digits)))
            at += len(digits)
        elif name:
            found.append(("mark" if name in WORDS else "name", name))
        elif variable:
            found.append(("variable", variable))
        elif number:
            found.append(("number", int(number)))
        else:
            found.append(("mark", mark))
        at = LAYOUT.match(text, at).end()
    return found


def terms_in(term):
    return term.terms if isinstance(term, Compound) else ()


def depth(term):
    return 1 + max(map(depth, terms_in(term)), default=0)


def size(term):
    return 1 + sum(map(size, terms_in(term)))


def is_within_limits(term):
    return depth(term) <= MOST_DEPTH and size(term) <= MOST_SIZE


def has_few_terms(term):
    return len(terms_in(term)) <= MOST_TERMS and all(map(has_few_terms, terms_in(term)))


def within_limits(term):
    """Returns the term as it is."""
    if not (has_few_terms(term) and is_within_limits(term)):
        raise TooMany
    return term


class Reader:
    """Reads rules and atoms. A term is a number, a symbol (a str), a Variable or a Compound."""

    def __init__(self, text):
        self.tokens, self.at, self.unnamed = tokens_of(text), 0, 0

    def is_left(self):
        return self.at < len(self.tokens)

    def takes(self, *marks):
        if self.is_left() and self.tokens[self.at][0] == "mark" and self.tokens[self.at][1] in marks:
            self.at += 1
            return self.tokens[self.at - 1][1]
        return None

    def term(self):
        """Returns a term of any depth and size."""
        kind, value = self.tokens[self.at]
        self.at += 1
        if kind == "name" and self.takes("("):
            terms = self.list_of(self.term)
            self.takes(")")
            return Compound(value, tuple(terms))
        if kind != "variable":
            return value
        self.unnamed += value == "_"
        return Variable(f"_{self.unnamed}" if value == "_" else value)

    def list_of(self, member):
        members = [member()]
        while self.takes(","):
            members.append(member())
        return members

    def operand(self):
        if not self.takes("("):
            return self.term()
        inner = self.expression()
        self.takes(")")
        return inner

    def operations(self, side, marks):
        found = side()
        while mark := self.takes(*marks):
            found = (mark, found, side())
        return found

    def expression(self):
        return self.operations(lambda: self.operations(self.operand, FACTORS), SUMMANDS)

    def member(self):
        """Returns an atom, which is a list of its name and its arguments, or (mark, left side, right side)."""
        left = self.expression()
        if mark := self.takes("==", "\\=="):
            return (mark, within_limits(left), within_limits(self.term()))
        if mark := self.takes(*ORDER, "is"):
            return (mark, left, self.expression())
        if len(terms_in(left)) > MOST_TERMS:
            raise TooMany
        return [left.functor, *map(within_limits, left.terms)] if isinstance(left, Compound) else [left]

    def members(self):
        return [it for it in self.list_of(self.member) if it != ["true"]]

    def rule(self):
        """Returns the kept heads, the removed heads, the guard and the body."""
        if self.tokens[self.at + 1] == ("mark", "@"):
            self.at += 2
        kept, removed = [], self.members()
        if self.takes("\\"):
            kept, removed = removed, self.members()
        self.takes("<=>")
        guard, body = [], self.members()
        if self.takes("|"):
            guard, body = body, self.members()
        self.takes(".")
        return kept, removed, guard, body


def read_rules(text):
    reader, rules = Reader(text), []
    while reader.is_left():
        if reader.takes(":-"):
            while not reader.takes("."):
                reader.at += 1
        else:
            rules.append(reader.rule())
    return rules


def read_atoms(text):
    reader, atoms = Reader(text), []
    while reader.is_left():
        atoms += reader.members()
        reader.takes(".")
    return atoms


def variables(terms):
    """Returns the names of all variables in some terms."""
    found = {it.name for it in terms if isinstance(it, Variable)}
    return found.union(*(variables(terms_in(it)) for it in terms))


def replaced(term, binding):
    """Returns the term with each variable replaced by its value; all of them have one."""
    if isinstance(term, Variable):
        return binding[term.name]
    if isinstance(term, Compound):
        return Compound(term.functor, tuple(replaced(it, binding) for it in term.terms))
    return term


def value_under(term, binding):
    """Returns the value of a term, None where it is past the limits."""
    value = replaced(term, binding)
    return value if is_within_limits(value) else None


def fits(binding, terms, values):
    """Says whether the terms are the values, and adds the variables' values to the binding."""
    if len(terms) != len(values):
        return False
    for term, value in zip(terms, values):
        if isinstance(term, Compound):
            same = isinstance(value, Compound) and term.functor == value.functor and fits(binding, term.terms, value.terms)
        elif isinstance(term, Variable):
            same = binding.setdefault(term.name, value) == value
        else:
            same = term == value
        if not same:
            return False
    return True


def extended(binding, head, atom):
    """Returns the binding under which the head is the atom, None where there is none."""
    made = dict(binding)
    return made if head[0] == atom[0] and fits(made, head[1:], atom[1:]) else None


def quotient(left, right):
    """Returns left / right, rounded toward zero."""
    return abs(left) // abs(right) * (1 if (left < 0) == (right < 0) else -1)


def value_of(expression, binding):
    """Returns the number that an expression stands for, None where it has no value."""
    if not isinstance(expression, tuple):
        value = replaced(expression, binding)
        return value if isinstance(value, int) and value in RANGE else None
    mark, left, right = expression[0], value_of(expression[1], binding), value_of(expression[2], binding)
    if left is None or right is None or (right == 0 and mark in FACTORS[1:]):
        return None
    value = {
        "+": lambda: left + right,
        "-": lambda: left - right,
        "*": lambda: left * right,
        "//": lambda: quotient(left, right),
        "rem": lambda: left - quotient(left, right) * right,
        "mod": lambda: left % right,
    }[mark]()
    return value if value in RANGE else None


def holds(comparison, binding):
    mark, left, right = comparison
    if mark in ORDER:
        left, right = value_of(left, binding), value_of(right, binding)
        return left is not None and right is not None and ORDER[mark](left, right)
    left, right = value_under(left, binding), value_under(right, binding)
    return left is not None and right is not None and (left == right) == (mark == "==")


def body_of(body, binding):
    """Returns the atoms of a body, None where an `is` or an argument has no value."""
    atoms, binding = [], dict(binding)
    for member in body:
        if isinstance(member, tuple):
            value = value_of(member[2], binding)
            if value is None:
                return None
            binding[member[1].name] = value
        else:
            atoms.append([member[0], *(value_under(it, binding) for it in member[1:])])
    return None if any(None in it for it in atoms) else atoms


def plan_of(heads, first):
    """Returns the heads in the order in which they are tried, by their places."""
    order, left = [first], [it for it in range(len(heads)) if it != first]
    while left:
        bound = variables([term for it in order for term in heads[it][1:]])
        is_key = lambda term: term.name in bound if isinstance(term, Variable) else not variables([term])
        has_key = lambda it: any(map(is_key, heads[it][1:]))
        order.append(next(filter(has_key, left), left[0]))
        left.remove(order[-1])
    return order


def instances(rules, store, label):
    """Gives each firing of a label with older partners, in the order of trials, over the store as it then is."""
    for number, (kept, removed, guard, body) in enumerate(rules, 1):
        heads = kept + removed
        for first in range(len(heads)):
            order = plan_of(heads, first)
            for placed, binding in trials(heads, order, store, label, [], {}):
                labels = [placed[order.index(it)] for it in range(len(heads))]
                if all(it in store for it in labels) and all(holds(it, binding) for it in guard):
                    made = body_of(body, binding)
                    if made is not None:
                        yield number, labels[: len(kept)], labels[len(kept) :], made


def trials(heads, order, store, label, placed, binding):
    """Gives the labels for all heads, in the order of the plan, with the binding under which they fit."""
    if len(placed) == len(order):
        yield placed, binding
        return
    for one in [label] if not placed else sorted(it for it in store if it < label):
        if one in store and one not in placed and all(it in store for it in placed):
            made = extended(binding, heads[order[len(placed)]], store[one])
            if made is not None:
                yield from trials(heads, order, store, label, [*placed, one], made)


def written_value(value):
    return written([value.functor, *value.terms]) if isinstance(value, Compound) else str(value)


def written(atom):
    return f"{atom[0]}({','.join(map(written_value, atom[1:]))})" if len(atom) > 1 else atom[0]


def run(rules, posts):
    """Returns what is printed of the run of one seat, to its end."""
    goals, store, label = list(posts), {}, 0
    log = [f"P {ticket} {written(atom)}" for ticket, atom in enumerate(posts, 1)]
    for ticket, atom in enumerate(goals, 1):
        label += 1
        store[label] = atom
        log.append(f"A {ticket} {label}")
        for number, kept, removed, body in instances(rules, store, label):
            log.append(f"F {ticket} {number} {','.join(map(str, kept))}\\{','.join(map(str, removed))}")
            for it in removed:
                del store[it]
            goals += body
            if label not in store:
                break
        else:
            log.append(f"D {ticket}")
    lines = ["quiet", f"store {len(store)}", *(f"#{it} {written(store[it])}" for it in store), f"log {len(log)}", *log]
    return "".join(f"{it}\n" for it in lines)


def run_files(rules, posts):
    return run(*(read(pathlib.Path(it).read_text(encoding="ascii")) for read, it in ((read_rules, rules), (read_atoms, posts))))


def main(words):
    if words:
        try:
            print(run_files(*words), end="")
        except TooMany:
            sys.exit("E07 TooMany")
        return 0
    folders = sorted(it.parent for it in EXAMPLES.glob("*/expected.txt"))
    failed = 0
    for it in folders:
        same = run_files(it / f"{it.name}.chr", it / "posts.txt") == (it / "expected.txt").read_text(encoding="ascii")
        failed += not same
        print(f"test reference::{it.name} ... {'ok' if same else 'FAILED'}")
    print(f"{len(folders) - failed} passed, {failed} failed")
    return 1 if failed else 0


if __name__ == "__main__":
    sys.exit(main(sys.argv[1:]))
