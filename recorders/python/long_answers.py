"""Has the sessions of a reduced run judged, and says what that makes of the run. For monitor_reduce."""
import concurrent.futures
import json
import os
import re
import subprocess

from importing import Refused, replaced_files
from long_sessions import MAP, SESSION

REPORT = "report"
WINDOW = re.compile(r"window-[0-9]{4,}")
YES, NO, UNKNOWN = "yes", "no", "unknown"


def sessions_in(folder):
    """The folders of the sessions: the folder itself, or those of its windows."""
    if os.path.isfile(os.path.join(folder, SESSION)):
        return [folder]
    if not os.path.isdir(folder):
        raise Refused(f"{folder}: there is no such folder")
    names = sorted(name for name in os.listdir(folder) if WINDOW.fullmatch(name))
    if not names:
        raise Refused(f"{folder}: there is no session in it, and no window of one")
    return [os.path.join(folder, name) for name in names]


class Judged:
    """A session that was judged: its processes, and what its report says of each predicate."""

    def __init__(self, folder, processes, report):
        self.folder, self.processes, self.answers = folder, processes, {}
        for line in report.splitlines()[1:]:
            name, question, answer, *evidence = line.split(" ")
            cut = evidence[0] if (question, answer) == ("possibly", YES) else None
            self.answers.setdefault(name, {})[question] = answer, cut


def ran(words, statuses):
    try:
        done = subprocess.run(words, capture_output=True, check=False)
    except OSError as error:
        raise Refused(f"{words[0]}: it can't be run: {error.strerror}; name the program by --program") from None
    if done.returncode not in statuses:
        said = (done.stderr or done.stdout).decode(errors="replace").strip()
        raise Refused(f"{' '.join(words[:2])} of {os.path.dirname(words[2])}: status {done.returncode}, {said}")
    return done.stdout


def judged(folder, program):
    """Judges the session in a folder, writes its report there, and has the evidence checked."""
    session = os.path.join(folder, SESSION)
    with open(session, encoding="utf-8") as file:
        processes = [process["name"] for process in json.load(file)["processes"]]
    streams = [os.path.join(folder, f"{name}.stream") for name in processes]
    report = ran([program, "judge", session, *streams, "--beyond-width"], [0])
    path = os.path.join(folder, REPORT)
    replaced_files({path: report})
    ran([program, "check", session, path, *streams], [0])
    return Judged(folder, processes, report.decode())


def joined(answers):
    """What the answers of the sessions make: yes if one is yes, or no if all are no."""
    return YES if YES in answers else UNKNOWN if UNKNOWN in answers else NO


def places(session, cut):
    """The last event of the run that is seen of each process at a cut of the session: where it stands."""
    counts = dict(zip(session.processes, map(int, cut.split(","))))
    last = {}
    with open(os.path.join(session.folder, MAP), encoding="utf-8") as file:
        for row in map(json.loads, file):
            if row["seen"] and row["event"] <= counts[row["process"]]:
                last[row["process"]] = row
    for name in session.processes:
        row = last[name]
        yield (f"  {name} after event {row['number']}: {row['stream']} line {row['line']}" if row["number"] else
               f"  {name} as it is at first: {row['stream']}")


def lines_of(name, question, sessions):
    found = [session.answers[name][question] for session in sessions]
    answer = joined([it for it, _ in found])
    at = next((at for at, (it, _) in enumerate(found) if it == answer), None)
    where = f" in {os.path.basename(sessions[at].folder)}" if answer != NO and len(sessions) > 1 else ""
    yield f"{name} {question} {answer}{where}"
    if (question, answer) == ("possibly", YES):
        yield from places(sessions[at], found[at][1])


def said(folder, program, jobs):
    """The answers of the run whose sessions stand in the folder."""
    with concurrent.futures.ThreadPoolExecutor(jobs) as pool:
        sessions = list(pool.map(lambda it: judged(it, program), sessions_in(folder)))
    return "\n".join(line for name in sessions[0].answers for question in sessions[0].answers[name]
                     for line in lines_of(name, question, sessions))
