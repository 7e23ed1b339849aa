#!/usr/bin/env python3
"""Writes the first session document of recorded streams, so that nobody writes their names twice:

    python3 monitor_infer.py FOLDER > session.json
    python3 monitor_infer.py left.stream right.stream > session.json
    monitor judge session.json left.stream right.stream --ask 'left.inside + right.inside == 2'

Of a folder each file `*.stream` is a stream. The document has each process in the order of the streams, with each
variable that its events set and the initial value 0, and the version 2 if a message is received more than once. Its one
predicate is `false`, under the name `replace_this`: put your question there, or ask it by --ask.

--initial says another initial value, of one process or of each that sets the variable. The document is written to the
file after --out, if it is given, which is replaced once the new one is whole.

The status is 0, or 1 if a stream is refused or they are no session together, and 2 if the command line is."""
import argparse
import collections
import json
import sys

from importing import PROCESS_LIMIT, Refused, initial, replaced_files
from monitor_mend import read_stream, streams_in
from monitor_recorder import NotRecorded, checked_name

VAR_LIMIT = 16
PREDICATE = {"name": "replace_this", "text": "false"}


def variables_of(stream):
    """The variables that a stream sets, in the order in which it first does, and 0 for each."""
    variables = {name: 0 for _, _, event in stream.events for name in event.get("set", {})}
    try:
        for name in variables:
            checked_name("variable", name)
    except NotRecorded as error:
        raise Refused(f"{stream.path}: {error}") from None
    if len(variables) > VAR_LIMIT:
        raise Refused(f"{stream.path}: {stream.process} sets {len(variables)} variables, and may have {VAR_LIMIT}: "
                      f"leave those out that no question needs")
    return variables


def processes_of(streams):
    """The variables of each process by its name."""
    processes, paths = {}, {}
    for stream in streams:
        if stream.process is None:
            raise Refused(f"{stream.path}: it has no line, so nobody knows whose stream it is")
        if stream.process in processes:
            raise Refused(f"{stream.path}: {paths[stream.process]} is a stream of {stream.process} too")
        try:
            checked_name("process", stream.process)
        except NotRecorded as error:
            raise Refused(f"{stream.path}: {error}") from None
        processes[stream.process], paths[stream.process] = variables_of(stream), stream.path
    if not 1 <= len(processes) <= PROCESS_LIMIT:
        raise Refused(f"there are {len(processes)} streams, and a session has 1 to {PROCESS_LIMIT} processes")
    return processes


def is_copied(streams):
    """Whether several events receive one message."""
    receipts = collections.Counter(event["recv"] for stream in streams for _, _, event in stream.events
                                   if "recv" in event)
    return any(count > 1 for count in receipts.values())


def set_initial(processes, values):
    """Puts in the initial values that are given: those of one process last."""
    for process, variable, value in sorted(values, key=lambda entry: entry[0] is not None):
        named = [name for name in processes if process in (None, name) and variable in processes[name]]
        if not named:
            raise Refused(f"--initial: no stream sets {variable if process is None else f'{process}.{variable}'}")
        for name in named:
            processes[name][variable] = value


def text_of(processes, copied):
    """The document, a process a line."""
    def written(value):
        return json.dumps(value, separators=(",", ":"))

    each = ",\n  ".join(written({"name": name, "vars": variables}) for name, variables in processes.items())
    version = ',\n "version":2' if copied else ""
    return f'{{"processes":[\n  {each}],\n "predicates":[\n  {written(PREDICATE)}]{version}}}\n'


def document_of(given):
    streams = [read_stream(path) for path in streams_in(given.streams)]
    processes = processes_of(streams)
    set_initial(processes, given.initial)
    return text_of(processes, is_copied(streams))


def arguments(words):
    parser = argparse.ArgumentParser(description=__doc__, formatter_class=argparse.RawDescriptionHelpFormatter)
    add = parser.add_argument
    add("streams", nargs="+", metavar="FOLDER|FILE", help="the file of a stream, or a folder of files *.stream")
    add("--initial", type=initial, action="append", default=[], metavar="[PROCESS.]NAME=VALUE",
        help="the value of a variable before the first event, if it isn't 0")
    add("--out", metavar="FILE", help="the file for the document, in place of standard output")
    return parser.parse_args(words)


def main(words):
    given = arguments(words)
    try:
        text = document_of(given)
        if given.out is None:
            sys.stdout.write(text)
        else:
            replaced_files({given.out: text.encode()})
    except (Refused, OSError) as error:
        print(f"refused: {error}", file=sys.stderr)
        return 1
    return 0


if __name__ == "__main__":
    sys.exit(main(sys.argv[1:]))
