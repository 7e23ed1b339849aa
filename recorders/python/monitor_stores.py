"""Records a store as a process of a session, though it records nothing itself: from the feed of its changes.

A store that gives its changes an order, as by etcd's revisions, PostgreSQL's log sequence numbers or the offsets of a
log, is a process whose events are these changes. Each sends a message, of which a copy goes to whoever learns of it:

    client = StoreClient(recorder, "etcd", since=revision)   # in each process that uses the store
    mark = client.write()                 # BEFORE the request leaves; the mark is written with what it writes
    client.learned(revision, holds=1)     # AFTER an answer has come that tells of this revision, of a read too

    record_store(recorder, "etcd", [Change(revision, mark, {"holder": 1}), ..])   # once the clients have ended

If a store tells positions of its log, which are no change's, as PostgreSQL does, these are handed on too:

    record_store(recorder, "postgres", changes, learned_by("postgres", ["one.stream", "two.stream"]))

A read sends nothing. It orders what its client does later after what the client read, and nothing after the read: two
clients that read the same revision know nothing of each other.

A session with a store is of version 2, since several clients learn of one change."""
import collections
import json

from monitor_recorder import NotRecorded

# A change of the store: its revision, the mark that a client wrote with it, or None, and what it sets.
Change = collections.namedtuple("Change", "revision mark variables", defaults=(None, {}))


def message_of(store, revision):
    """The id of the message that a change of a store sends."""
    return f"{store}@{revision}"


class StoreClient:
    """What a process learns of a store, whose process in the session has the name `store`. Changes up to the revision
    `since` are older than the recording. One client belongs to one recorder, as that to one process or strand."""

    def __init__(self, recorder, store, since=0):
        self.recorder = recorder
        self.store = store
        self.revision = since

    def write(self, **variables):
        """A request to write is about to leave: the id of its message, which is to be written with what it writes, such
        that the feed of the store tells it. If the store writes nothing, as a condition fails, the message is one that
        nobody receives, which is lawful."""
        return self.recorder.send(**variables)

    def learned(self, revision, **variables):
        """An answer, or a notice, has told of this revision: an event if it is new or if something is set."""
        with self.recorder.lock:
            if revision > self.revision:
                self.recorder.receive(message_of(self.store, revision), **variables)
                self.revision = revision
            elif variables:
                self.recorder.event(**variables)


def record_store(recorder, store, changes, told=()):
    """Records the changes of a store, in their order: all of those of which a client has learned. `told` are further
    revisions that clients have learned, as `learned_by` gives them. One that is no change's becomes an event of its
    own: it comes after the changes up to there, and sets nothing."""
    changes = list(changes)
    for earlier, change in zip(changes, changes[1:]):
        if change.revision <= earlier.revision:
            raise NotRecorded(f"revision {change.revision} of {store} comes after revision {earlier.revision}: changes "
                              f"are recorded in their order")
    between = set(told).difference(change.revision for change in changes)
    for change in sorted([*changes, *map(Change, between)], key=lambda change: change.revision):
        if change.mark is not None:
            recorder.receive(change.mark)
        recorder.send(message_of(store, change.revision), **change.variables)


def learned_by(store, paths):
    """The revisions of a store that are learned in these files, which are streams of clients that have ended."""
    prefix = message_of(store, "")
    revisions = set()
    for path in paths:
        with open(path, encoding="utf-8") as stream:
            messages = [json.loads(line).get("recv", "") for line in stream]
        revisions.update(int(message[len(prefix):]) for message in messages if message.startswith(prefix))
    return revisions
