"""What the example asks of etcd, by the JSON form of its protocol, version 3, with Python's standard library alone."""
import base64
import json
import urllib.request

SECONDS = 10
# The key under which a writer leaves the mark of its message, in the transaction that writes.
MARK = "monitor/mark"


def coded(text):
    return base64.b64encode(text.encode()).decode()


def text_of(code):
    return base64.b64decode(code).decode()


def is_revision(key, revision):
    """The condition that a key was created at this revision; at 0, that there is none."""
    return {"key": coded(key), "target": "CREATE", "result": "EQUAL", "createRevision": str(revision)}


def put(key, value, lease=0):
    return {"requestPut": {"key": coded(key), "value": coded(value), "lease": str(lease)}}


def delete(key):
    return {"requestDeleteRange": {"key": coded(key)}}


class Etcd:
    """A member of an etcd, by its port."""

    def __init__(self, port):
        self.url = f"http://127.0.0.1:{port}/v3/"

    def opened(self, path, body, seconds=SECONDS):
        request = urllib.request.Request(self.url + path, json.dumps(body).encode())
        return urllib.request.urlopen(request, timeout=seconds)

    def ask(self, path, body):
        with self.opened(path, body) as answer:
            return json.load(answer)

    def revision(self):
        """The revision of the last change."""
        return int(self.ask("kv/range", {"key": coded(MARK)})["header"]["revision"])

    def lease(self, seconds):
        return self.ask("lease/grant", {"TTL": seconds})["ID"]

    def transaction(self, conditions, *writes):
        """Writes if all conditions hold. Whether they do, and the revision of which the answer tells."""
        answer = self.ask("kv/txn", {"compare": conditions, "success": writes})
        return bool(answer.get("succeeded")), int(answer["header"]["revision"])

    def changes(self, since, last):
        """What changed after one revision and up to another: each revision with its keys, and None of what is gone."""
        wanted = {"key": coded("\0"), "range_end": coded("\0"), "start_revision": str(since + 1)}
        changes = {}
        with self.opened("watch", {"create_request": wanted}) as feed:
            while max(changes, default=since) < last:
                for event in json.loads(feed.readline())["result"].get("events", []):
                    entry = event["kv"]
                    value = None if event.get("type") == "DELETE" else text_of(entry.get("value", ""))
                    changes.setdefault(int(entry["mod_revision"]), {})[text_of(entry["key"])] = value
        return sorted(changes.items())
