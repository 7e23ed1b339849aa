"""Reads the texts of predicates, by the grammar in docs/SPECIFICATION.md, as far as to say what they name: the
comparisons of each, and what a process shows of itself to them. For what works on whole recordings, as
monitor_reduce."""
import re

TEXT_BYTE_LIMIT = 4_096
DEPTH_LIMIT = 64
GREATEST_NUMBER, GREATEST_FACTOR = 2**63 - 1, 2**31 - 1
RESERVED = (b"and", b"or", b"not", b"true", b"false")
TOKEN = re.compile(rb"[A-Za-z_][A-Za-z0-9_]*|[0-9]+|==|!=|<=|>=|[<>+*.()-]|[ \t]+")
RELATIONS = (b"==", b"!=", b"<", b"<=", b">", b">=")


class NoPredicate(ValueError):
    """The text is no predicate: `word` is the monitor's word for why, and `at` the byte, from 1."""

    def __init__(self, word, at):
        super().__init__(f"{word} at {at}")
        self.word, self.at = word, at


class Comparison:
    """A comparison: `named` are the processes that it names, and `factors` has the factor of each (process, variable)
    in the left sum less the right one, also where that is 0. It holds if the terms and `constant` have this `relation`
    to 0."""

    def __init__(self):
        self.factors = {}
        self.constant = 0
        self.relation = None

    def add(self, factor, reference):
        if reference is None:
            self.constant += factor
        else:
            self.factors[reference] = self.factors.get(reference, 0) + factor

    @property
    def named(self):
        return {process for process, _ in self.factors}


def tokens_of(text):
    """The tokens of a text as (byte, token), and at last that of its end."""
    data, found, at = text.encode("utf-8", "surrogatepass"), [], 0
    if len(data) > TEXT_BYTE_LIMIT:
        raise NoPredicate("long", TEXT_BYTE_LIMIT + 1)
    while at < len(data):
        match = TOKEN.match(data, at)
        if match is None:
            raise NoPredicate("character", at + 1)
        if match[0].strip(b" \t"):
            found.append((at + 1, match[0]))
        at = match.end()
    found.append((len(data) + 1, b""))
    for (place, token), (_, following) in zip(found, found[1:]):
        if token.isdigit() and int(token) > (GREATEST_FACTOR if following == b"*" else GREATEST_NUMBER):
            raise NoPredicate("number", place)
    return found


class Reader:
    """Reads the tokens of a text from left to right, so the first fault is that of the least byte."""

    def __init__(self, text, variables):
        self.tokens = tokens_of(text)
        self.variables = variables
        self.place = 0
        self.comparisons = []

    @property
    def token(self):
        return self.tokens[self.place][1]

    def refused(self, word):
        return NoPredicate(word, self.tokens[self.place][0])

    def take(self, *tokens):
        """Whether one of these tokens comes next: if so, it is taken."""
        if self.token not in tokens or not self.token:
            return False
        self.place += 1
        return True

    def expect(self, *tokens):
        if not self.take(*tokens):
            raise self.refused("expected")

    def read(self):
        self.read_or(0)
        if self.token:
            raise self.refused("expected")
        return self.comparisons

    def read_or(self, depth):
        self.read_and(depth)
        while self.take(b"or"):
            self.read_and(depth)

    def read_and(self, depth):
        self.read_not(depth)
        while self.take(b"and"):
            self.read_not(depth)

    def read_not(self, depth):
        if self.token in (b"not", b"("):
            if depth == DEPTH_LIMIT:
                raise self.refused("depth")
            if self.take(b"not"):
                self.read_not(depth + 1)
            else:
                self.place += 1
                self.read_or(depth + 1)
                self.expect(b")")
        elif not self.take(b"true", b"false"):
            self.read_comparison()

    def read_comparison(self):
        comparison = Comparison()
        self.read_sum(comparison, 1)
        comparison.relation = self.token.decode()
        self.expect(*RELATIONS)
        self.read_sum(comparison, -1)
        self.comparisons.append(comparison)

    def read_sum(self, comparison, side):
        sign = -1 if self.take(b"-") else 1
        self.read_term(comparison, side * sign)
        while self.token in (b"+", b"-"):
            sign = -1 if self.token == b"-" else 1
            self.place += 1
            self.read_term(comparison, side * sign)

    def read_term(self, comparison, factor):
        if self.token.isdigit():
            factor *= int(self.token)
            self.place += 1
            if not self.take(b"*"):
                comparison.add(factor, None)
                return
        comparison.add(factor, self.read_reference())

    def read_reference(self):
        process = self.read_name(self.variables)
        self.expect(b".")
        return process, self.read_name(self.variables[process])

    def read_name(self, known):
        name = self.token
        if not re.match(rb"[A-Za-z_]", name) or name in RESERVED:
            raise self.refused("expected")
        if name.decode() not in known:
            raise self.refused("unknownname")
        self.place += 1
        return name.decode()


def comparisons_of(text, variables):
    """The comparisons of a predicate. `variables` has the variables of each process. A NoPredicate says what is wrong
    with the text."""
    return Reader(text, variables).read()


def sum_text(comparison, names):
    """The comparison as an expression of Python, where each variable that is one process's has this name."""
    terms = [f"{factor} * {names[variable]}" for (_, variable), factor in comparison.factors.items() if factor]
    return f"{' + '.join([*terms, str(comparison.constant)])} {comparison.relation} 0"


def view_of(process, comparisons):
    """The variables of the process that the comparisons name, and a function of their values, in this order, which
    gives what the comparisons can see of the process: the truth of each that names it alone, and the values of its
    variables in each other one."""
    naming = [it for it in comparisons if process in it.named]
    variables = sorted({name for it in naming for owner, name in it.factors if owner == process})
    names = {name: f"v{number}" for number, name in enumerate(variables)}
    shared = [name for name in variables if any((process, name) in it.factors for it in naming if len(it.named) > 1)]
    parts = [names[name] for name in shared] + [sum_text(it, names) for it in naming if len(it.named) == 1]
    # What is evaluated has numbers, relations and the names made here, and nothing of the text.
    return variables, eval(f"lambda {', '.join(names.values())}: ({''.join(f'{part}, ' for part in parts)})")
