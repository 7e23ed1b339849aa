#!/usr/bin/env python3
"""signals.py [PROGRAM]: what signals do to the program, of which docs/DAMAGE.md tells. It is crates/monitor/out/monitor
if no other one is given.

Runs that wait, for input by a pipe, for files that are pipes, for whoever reads their output, for connections and for
what comes over them, are stopped and continued again and again while they wait, and must give what an undisturbed run
gives. A run whose output may grow no longer is ended by SIGXFSZ with that much of the output written, or, if the signal
is ignored, ends with status 3. The last line says how many runs there were and how often they were stopped; the status
is 1 if any went otherwise."""
import contextlib
import os
import resource
import signal
import subprocess
import sys
import tempfile
import threading
import time

import listening

TOP = os.path.dirname(os.path.dirname(os.path.abspath(__file__)))
PROGRAM = os.path.abspath((sys.argv + [os.path.join(TOP, "crates", "monitor", "out", "monitor")])[1])
EXAMPLE = os.path.join(TOP, "examples", "ten-lines")
DOCUMENT, LEFT, RIGHT = (os.path.join(EXAMPLE, name) for name in ("session.json", "left.stream", "right.stream"))
SECONDS = 60
# How long a run is stopped, and then goes on before it is stopped again.
PAUSE = 0.002
# How often a run is stopped in each of its waits.
TIMES = 20
# A page has more bytes than this.
SIZE_LIMIT = 1_000


def contents(path):
    with open(path, "rb") as file:
        return file.read()


class Shaken:
    """A run of the program that is stopped and continued."""
    count = 0

    def __init__(self, *words, **how):
        self.process = subprocess.Popen([PROGRAM, *words], stderr=subprocess.PIPE, bufsize=0, **how)

    def shake(self, times=TIMES):
        for _ in range(times):
            self.process.send_signal(signal.SIGSTOP)
            time.sleep(PAUSE)
            self.process.send_signal(signal.SIGCONT)
            time.sleep(PAUSE)
        Shaken.count += times

    def ended(self):
        output, errors = self.process.communicate(timeout=SECONDS)
        return self.process.returncode, output, errors

    def __enter__(self):
        return self

    def __exit__(self, kind, error, trace):
        if self.process.poll() is None:
            self.process.kill()
            self.process.wait()


def report():
    return 0, contents(os.path.join(EXAMPLE, "report")), b""


def bundle(_folder):
    """a bundle by a pipe"""
    text = b"---\n".join(map(contents, (DOCUMENT, LEFT, RIGHT)))
    with Shaken(stdin=subprocess.PIPE, stdout=subprocess.PIPE) as run:
        for at in range(0, len(text), len(text) // 4):
            run.shake()
            run.process.stdin.write(text[at:at + len(text) // 4])
        return run.ended(), report()


def files(folder):
    """files that are pipes"""
    pipes = [os.path.join(folder, name) for name in ("left", "right")]
    for pipe in pipes:
        os.mkfifo(pipe)
    with Shaken("judge", DOCUMENT, *pipes, stdout=subprocess.PIPE) as run:
        for pipe, path in zip(pipes, (LEFT, RIGHT)):
            run.shake()
            with open(pipe, "wb") as file:
                run.shake()
                file.write(contents(path))
        return run.ended(), report()


def output(_folder):
    """an output that is read late"""
    words = ("explore", DOCUMENT, LEFT, RIGHT)
    want = subprocess.run([PROGRAM, *words], capture_output=True, timeout=SECONDS, check=False)
    with Shaken(*words, stdout=subprocess.PIPE) as run:
        run.shake()
        first = run.process.stdout.read(SIZE_LIMIT)
        run.shake()
        status, rest, errors = run.ended()
    return (status, first + rest, errors), (want.returncode, want.stdout, want.stderr)


def served():
    """A server that listens, and its port. Others are tried if another program has that by now."""
    while True:
        port = listening.free_ports(2)
        run = Shaken("serve", DOCUMENT, "--port", str(port), "--watchers", "1", stdout=subprocess.PIPE)
        if listening.wait_for(run.process, port):
            return run, port
        if run.ended()[2] != b"monitor: network\n":
            raise ConnectionError("the server doesn't listen")


def server(_folder):
    """a server, its streams and its watcher"""
    run, port = served()
    with contextlib.ExitStack() as stack:
        stack.enter_context(run)
        ends = []
        for at in (port + 1, port, port):
            ends.append(stack.enter_context(listening.connect(run.process, at)))
            run.shake()
        reading = threading.Thread(target=lambda: [None for _ in iter(lambda: ends[0].recv(4096), b"")])
        reading.start()
        for end, path in zip(ends[1:], (LEFT, RIGHT)):
            for line in contents(path).splitlines(keepends=True):
                end.sendall(line)
                run.shake(TIMES // 4)
            end.close()
        ended = run.ended()
        reading.join(SECONDS)
        return ended, report()


def limited(how):
    """What a run gives that may write so many bytes to a file, with SIGXFSZ at its default or ignored."""
    def prepare():
        signal.signal(signal.SIGXFSZ, how)
        resource.setrlimit(resource.RLIMIT_FSIZE, (SIZE_LIMIT, SIZE_LIMIT))

    words = [PROGRAM, "explore", DOCUMENT, LEFT, RIGHT]
    with tempfile.TemporaryFile() as page:
        ran = subprocess.run(words, stdout=page, stderr=subprocess.PIPE, timeout=SECONDS, check=False,
                             preexec_fn=prepare, restore_signals=False)
        return ran.returncode, os.fstat(page.fileno()).st_size, ran.stderr


def limit(_folder):
    """a file that may grow no longer"""
    return limited(signal.SIG_DFL), (-signal.SIGXFSZ, SIZE_LIMIT, b"")


def ignored_limit(_folder):
    """a file that may grow no longer, with the signal ignored"""
    return limited(signal.SIG_IGN), (3, SIZE_LIMIT, b"monitor: write\n")


def main():
    runs, wrong = (bundle, files, output, server, limit, ignored_limit), 0
    for run in runs:
        with tempfile.TemporaryDirectory() as folder:
            ended, want = run(folder)
        if ended != want:
            wrong += 1
            print(f"signals: {run.__doc__}: {ended!r:.300}\n  and not {want!r:.300}")
    print(f"signals: {len(runs)} runs, stopped {Shaken.count} times, {wrong} wrong")
    sys.exit(1 if wrong else 0)


if __name__ == "__main__":
    main()
