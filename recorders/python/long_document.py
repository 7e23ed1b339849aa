"""Reads the document of a long run, which is one of a session with up to 4,096 processes. For monitor_reduce."""
import json

from importing import PREDICATE_LIMIT, PROCESS_LIMIT, WIDTH_LIMIT, Refused, shown
from monitor_infer import VAR_LIMIT
from monitor_mend import Faulty, bytes_of, number_of, refuse_constant
from monitor_recorder import GREATEST_VALUE, LEAST_VALUE, NotRecorded, checked_name
from predicates import NoPredicate, comparisons_of

RUN_PROCESS_LIMIT = 4_096
DOCUMENT_BYTE_LIMIT = 16_777_216
FIELDS = ("processes", "predicates", "width", "version")
# What the monitor's words for what is wrong with a predicate mean, each at a byte.
WORDS = {"long": "the text is too long", "character": "this begins no word, number or sign; often = for ==",
         "number": "the number is too great", "expected": "something else has to come here",
         "unknownname": "the document has no such process, or the process no such variable",
         "depth": "too many parentheses and nots, one inside another"}


class Document:
    """The document as far as a reduction needs it: `variables` has the initial values of each process, `predicates` the
    (name, text) of those that are asked, `comparisons` what these compare, and `kept` the processes that these name."""

    def __init__(self, value):
        self.variables = {process["name"]: process["vars"] for process in value["processes"]}
        self.predicates = [(predicate["name"], predicate["text"]) for predicate in value["predicates"]]
        self.width, self.version = value.get("width"), value.get("version", 1)
        self.comparisons, self.kept = [], []

    def ask(self, comparisons):
        """Takes the comparisons of the predicates. If these name no process, the first one is kept."""
        named = {process for comparison in comparisons for process in comparison.named}
        self.comparisons = comparisons
        self.kept = [name for name in self.variables if name in named] or list(self.variables)[:1]


def whole_number(value, least, greatest):
    return type(value) is int and least <= value <= greatest


def is_of(value, **types):
    """Whether the value is an object of exactly these fields, each of its type."""
    return (isinstance(value, dict) and value.keys() == types.keys()
            and all(isinstance(value[field], of) for field, of in types.items()))


def fault_of_shape(value):
    if not isinstance(value, dict):
        return "it isn't an object"
    for field in value:
        if field not in FIELDS:
            return f"{shown(field)} is no field that it can have"
    for field, of in (("processes", {"name": str, "vars": dict}), ("predicates", {"name": str, "text": str})):
        if not isinstance(value.get(field), list):
            return f"{field!r} isn't there, or isn't a list"
        for number, each in enumerate(value[field], 1):
            if not is_of(each, **of):
                return f"number {number} of {field!r} isn't an object with {' and '.join(map(repr, of))} alone"
    return None


def fault_of_names(value):
    for kind, field, limit in (("process", "processes", RUN_PROCESS_LIMIT),
                               ("predicate", "predicates", PREDICATE_LIMIT)):
        if not 1 <= len(value[field]) <= limit:
            return f"there are {len(value[field])} {field}, and a run has 1 to {limit:,}"
        names = set()
        for each in value[field]:
            checked_name(kind, each["name"])
            if each["name"] in names:
                return f"two {field} have the name {each['name']}"
            names.add(each["name"])
    return None


def fault_of_variables(value):
    for process in value["processes"]:
        if len(process["vars"]) > VAR_LIMIT:
            return f"{process['name']} has {len(process['vars'])} variables, and may have {VAR_LIMIT}"
        for name, initial in process["vars"].items():
            checked_name("variable", name)
            if not whole_number(initial, LEAST_VALUE, GREATEST_VALUE):
                return f"the initial value of {process['name']}.{name} is no whole number of 64 bits"
    return None


def fault_of_numbers(value):
    if "width" in value and not whole_number(value["width"], 1, WIDTH_LIMIT):
        return f"the width is a whole number from 1 to {WIDTH_LIMIT:,}"
    if "version" in value and not whole_number(value["version"], 1, 2):
        return "the version is 1 or 2"
    return None


def value_of(path):
    """The document's value, looked at as the monitor does, but for the predicates."""
    data = bytes_of(path, DOCUMENT_BYTE_LIMIT, "no document has")
    try:
        value = json.loads(data.decode(), parse_constant=refuse_constant, parse_int=number_of)
        for fault_of in (fault_of_shape, fault_of_names, fault_of_variables, fault_of_numbers):
            fault = fault_of(value)
            if fault is not None:
                raise Refused(f"{path}: {fault}")
        return value
    except RecursionError:
        raise Refused(f"{path}: it nests too deep") from None
    except (Faulty, NotRecorded) as error:
        raise Refused(f"{path}: {error}") from None
    except ValueError as error:
        raise Refused(f"{path}: it isn't JSON in UTF-8: {error}") from None


def read_document(path, only=None):
    """The document in a file, with the predicate of this name alone, if one is given."""
    document, comparisons = Document(value_of(path)), []
    for number, (name, text) in enumerate(document.predicates, 1):
        try:
            found = comparisons_of(text, document.variables)
        except NoPredicate as fault:
            raise Refused(f"{path}: predicate {number}, {name}: {fault.word} at byte {fault.at} of its text: "
                          f"{WORDS[fault.word]}") from None
        comparisons += found if only in (None, name) else []
    if only is not None:
        document.predicates = [it for it in document.predicates if it[0] == only]
        if not document.predicates:
            raise Refused(f"{path}: there is no predicate {only}")
    document.ask(comparisons)
    if len(document.kept) > PROCESS_LIMIT:
        raise Refused(f"{path}: the predicates name {len(document.kept)} processes, and a session has {PROCESS_LIMIT}: "
                      + ("ask about fewer of them" if only else "reduce the run for one predicate, by --predicate"))
    return document
