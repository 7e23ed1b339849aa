#!/usr/bin/env python3
"""record.py FOLDER: has two workers of jobs.py take jobs in FOLDER/postgres-jobs, and again with locks in
FOLDER/postgres-jobs-locked, each time from a PostgreSQL of its own, on a socket in a folder of its own. The stream of
postgres is made of its logical decoding. It needs the server's programs, which are in Debian's package postgresql: if
they are missing it says so, and records nothing. As root it runs the server as the user postgres."""
import argparse
import contextlib
import glob
import os
import re
import shutil
import signal
import subprocess
import sys
import tempfile
import time

from postgres import USER, Postgres

HERE = os.path.dirname(os.path.abspath(__file__))
sys.path.insert(0, os.path.join(HERE, "..", "..", "recorders", "python"))
from monitor_recorder import Recorder  # noqa: E402
from monitor_stores import Change, learned_by, record_store  # noqa: E402

JOBS = 4
WORKERS = ("one", "two")
TABLE = ("CREATE TABLE jobs (id integer PRIMARY KEY, worker text, done boolean NOT NULL DEFAULT false); "
         f"INSERT INTO jobs SELECT generate_series(1, {JOBS})")
DONE = re.compile(r"table public\.jobs: UPDATE: id\[integer\]:([0-9]+) .* done\[boolean\]:true")


def server_programs():
    """The folder of the server's programs, which Debian has on no path. None if there is none."""
    folders = [*sorted(glob.glob("/usr/lib/postgresql/*/bin"), reverse=True), *os.get_exec_path()]
    return next((folder for folder in folders if all(os.access(os.path.join(folder, program), os.X_OK)
                                                     for program in ("initdb", "postgres"))), None)


def wait_for(folder):
    """Waits until the server answers."""
    for _ in range(600):
        with contextlib.suppress(OSError):
            return Postgres(folder)
        time.sleep(0.1)
    with open(os.path.join(folder, "log"), encoding="utf-8", errors="replace") as log:
        sys.exit(f"record.py: PostgreSQL doesn't answer:\n{log.read()}")


@contextlib.contextmanager
def server(programs):
    """The folder of the socket of a server, which ends with the block."""
    with tempfile.TemporaryDirectory() as folder, open(os.path.join(folder, "log"), "wb") as log:
        more = {"stdin": subprocess.DEVNULL, "stdout": log, "stderr": log, "cwd": folder}
        if os.geteuid() == 0:
            shutil.chown(folder, USER)
            more["user"] = USER
        data = os.path.join(folder, "data")
        subprocess.run([os.path.join(programs, "initdb"), "-D", data, "-U", USER, "-A", "trust", "-E", "UTF8",
                        "--locale", "C", "--no-sync"], check=True, **more)
        process = subprocess.Popen([os.path.join(programs, "postgres"), "-D", data, "-k", folder, "-h", "",
                                    "-c", "wal_level=logical", "-c", "port=5432"], **more)
        try:
            wait_for(folder)
            yield folder
        finally:
            process.send_signal(signal.SIGINT)
            process.wait()


def run_workers(folder, sockets, since, words):
    """Runs both workers, which begin once both are ready."""
    workers = [subprocess.Popen([sys.executable, os.path.join(HERE, "jobs.py"), name, folder, "--postgres", sockets,
                                 "--since", str(since), *words], stdin=subprocess.PIPE, stdout=subprocess.PIPE,
                                text=True) for name in WORKERS]
    for worker in workers:
        worker.stdout.readline()
    for worker in workers:
        worker.stdin.write("\n")
        worker.stdin.flush()
    for worker in workers:
        print(worker.communicate()[0], end="")
    if any(worker.returncode != 0 for worker in workers):
        sys.exit("record.py: a worker has failed")


def changes_of(postgres):
    """The commits of the workers: of each how many jobs are done after it."""
    done = set()
    for position, mark, lines in postgres.changes():
        done.update(found[1] for found in map(DONE.match, lines) if found)
        yield Change(position, mark, {"done": len(done)})


def record(programs, folder, words):
    os.makedirs(folder, exist_ok=True)
    with server(programs) as sockets:
        postgres = Postgres(sockets)
        postgres.ask(TABLE)
        postgres.begin_feed()
        run_workers(folder, sockets, postgres.position(), words)
        changes = list(changes_of(postgres))
    told = learned_by("postgres", [os.path.join(folder, f"{name}.stream") for name in WORKERS])
    with Recorder.to_file("postgres", os.path.join(folder, "postgres.stream"), replace=True) as recorder:
        record_store(recorder, "postgres", changes, told)


def main():
    parser = argparse.ArgumentParser(description=__doc__, formatter_class=argparse.RawDescriptionHelpFormatter)
    parser.add_argument("folder")
    given = parser.parse_args()
    programs = server_programs()
    if programs is None:
        print("record.py: left out, for there is no PostgreSQL (Debian's package: postgresql)")
        return
    for name, words in (("postgres-jobs", []), ("postgres-jobs-locked", ["--locked"])):
        record(programs, os.path.join(given.folder, name), words)


if __name__ == "__main__":
    main()
