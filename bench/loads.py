"""The loads whose instructions are counted: what each is, how `generate.py` makes it, and what is wanted of it."""
from typing import NamedTuple


class Load(NamedTuple):
    """A load: its name, what it is, the words for `generate.py`, the most that is wanted of it in instructions of the
    plain program, or nothing, and whether the gate counts it."""
    name: str
    what: str
    words: str
    wanted: float | None = None
    in_gate: bool = True


BEYOND_WIDTH = ("leaders", "pairs", "boxes", "grid", "products", "path")  # judged from files, with that option

# What is compared with the plain program.
COMPARED = (
    Load("wide", "8 processes, wide levels, a sum that no cut satisfies", "shape wide", 1.0),
    Load("wide6", "6 processes, the same with a conjunction of comparisons", "shape wide6", 0.9),
    Load("long runs", "4 processes of 12 local events between messages", "shape there_and_back 4", 0.6),
    Load("two", "2 processes and no messages", "shape two", 0.2),
    Load("some", "6 processes, a conjunction that some cuts satisfy", "shape some", 1.0),
    Load("avoid", "7 processes, a sum that some cuts satisfy", "shape avoid", 1.2),
    Load("deep", "3 processes, narrow levels, 3 predicates", "shape deep", 1.1),
    Load("definitely_path", "4 processes, a third of the cuts satisfy", "shape definitely_path", 0.7),
    Load("small predicates", "5 processes, 16 predicates of few comparisons", "shape small_predicates", 1.2),
    Load("hub", "seven processes that ask one, which answers", "hub", 1.5),
    Load("barriers 8", "8 processes that all tell one and are told", "shape barriers 8", 1.5),
    Load("barriers 4", "4 processes, the same after three local events", "shape barriers 4", 1.2),
    Load("gossip 6", "6 processes that send to others at random", "shape gossip 6", 1.2),
    Load("gossip 8", "8 processes, the same", "shape gossip 8", 1.5),
    Load("server 3", "3 clients that ask a server at random", "shape server 3", 1.3),
    Load("server 7", "7 clients, the same", "shape server 7", 1.5),
    Load("bursts 4", "a token goes round 4 processes, with bursts of local events", "shape bursts 4", 1.3),
    Load("bursts 8", "8 processes, the same", "shape bursts 8", 1.2),
    Load("everyone 4", "4 processes, all to all", "shape everyone 4", 0.9),
    Load("wide 9", "9 processes, a message there and back after each round", "shape there_and_back 9", 1.5),
    Load("wide 12", "12 processes, the same", "shape there_and_back 12", 1.8),
    Load("wide 14", "14 processes, the same", "shape there_and_back 14", 1.8),
    Load("barriers 12", "12 processes that all tell one and are told", "shape barriers 12", 1.5),
    Load("gossip 10", "10 processes that send to others at random", "shape gossip 10", 1.5),
    Load("server 15", "15 clients that ask a server at random", "shape server 15", 1.5),
    Load("everyone 16", "16 processes, all to all", "shape everyone 16", 1.5),
    Load("ring", "a token that goes round 8 processes: levels of one cut", "ring", 1.5),
    Load("messages", "8 streams, sends and receipts: levels of three cuts", "shape messages", 1.5),
    Load("messages, read", "the same lines, and no walk", "shape messages_read", 1.5),
    Load("chains", "the same lines with a cycle at the end", "shape chains", 1.5),
    Load("ingest", "8 streams, 16 variables set by each event", "shape ingest", 1.5),
    Load("ingest, read", "the same lines, and no walk", "shape ingest_read", 1.5),
    Load("short lines", "8 streams, a variable set by each event, and no walk", "shape short_lines", 1.5),
    Load("long names", "long names of processes and variables, and long ids", "shape long_names", 1.3),
    Load("variables", "16 variables, 4 set by an event", "shape variables", 1.3),
    Load("predicates", "16 predicates of 4,000 bytes", "shape predicates", 0.3),
    Load("ors", "an `or` of 32 equalities of three terms", "shape equalities", 1.0),
)

# What only the gate looks at: how the program's own instructions change.
GUARDED = (
    Load("lattice", "6 processes, a conjunction", "lattice"),
    Load("terms", "16 predicates of nearly 4,096 bytes", "terms"),
    Load("avoiding", "7 processes, a sum that some cuts satisfy", "avoiding"),
    Load("sums", "an `or` of 40 sums", "sums"),
    Load("marked", "the same, where nearly all levels are marked", "marked"),
    Load("heavy", "an `or` of 46 sums", "heavy"),
    Load("many", "16 predicates of 30 sums", "many"),
    Load("lists", "avoiding cuts that stand in lists", "lists"),
    Load("streams", "8 streams, 16 variables set by each event, and no walk", "streams"),
    Load("talk", "8 streams of random sends and receipts, and no walk", "messages"),
    Load("several", "messages with several receivers", "several"),
    Load("leaders", "16 predicates of 120 pairs", "leaders"),
    Load("pairs", "2 processes, a sum", "pairs"),
    Load("boxes", "conjunctions of comparisons of one process", "boxes"),
    Load("grid", "sums of two processes", "grid"),
    Load("products", "an `and` of 9 `or`s", "products"),
    Load("path", "the path of an observation", "path"),
    Load("wide 8", "8 processes, a message there and back after each round", "wide 8"),
    Load("wide 16", "16 processes, the same", "wide 16"),
)

LOADS = {load.name: load for load in (*COMPARED, *GUARDED)}

# What the functions whose names begin so do; the first that fits.
WORK = (
    ("walk_runs::advance", "move runs to the next level"),
    ("walk_runs::point", "move runs to the next level"),
    ("walk_runs::birth", "find births"),
    ("core::slice::sort", "find births"),
    ("walk_runs::steps", "make the tables of steps"),
    ("walk_runs", "put runs and births together"),
    ("walk_marks::skipped", "find what each run may skip"),
    ("walk_marks::asked", "find what each run may skip"),
    ("walk_marks", "mark the cuts that avoid"),
    ("walk_tables::compile", "compile predicates"),
    ("walk_tables::form", "compile predicates"),
    ("walk_tables::join", "compile predicates"),
    ("walk_tables::parts", "compile predicates"),
    ("walk_tables", "look at predicates"),
    ("walk_back::held", "go from level to level"),
    ("walk_back", "find the way back"),
    ("walk_keys", "find the way back"),
    ("walk", "go from level to level"),
    ("pd_match", "match messages"),
    ("indexmap", "match messages"),
    ("pd_clock", "build the computation"),
    ("pd_pred", "read predicates"),
    ("pd_report", "write the report"),
    ("pd_", "read lines"),
    ("read_", "read lines"),
    ("memchr", "read lines"),
    ("core::str", "read lines"),
    ("core::slice::scan", "read lines"),
    ("core::slice::words", "read lines"),
    ("core::cmp", "read lines"),
    ("serde_json", "read the document"),
    ("__mem", "copy and clear memory"),
    ("_dl_", "start"),
    ("do_lookup", "start"),
    ("_int_", "allocate"),
    ("malloc", "allocate"),
    ("realloc", "allocate"),
    ("calloc", "allocate"),
    ("free", "allocate"),
    ("unlink_chunk", "allocate"),
    ("rattle_alloc", "allocate"),
)


def work_of(function):
    """What a function does, in words."""
    return next((work for begin, work in WORK if function.startswith(begin)), "do other things")
