// What the types of the recorder take and refuse: nothing of it is run. With TypeScript 4.7 or later:
// tsc --strict --noEmit --module node16 --moduleResolution node16 --target es2022 monitor_recorder.types.mts
import { EVENT_LIMIT, NotRecorded, Reason, RecordedLock, RecordedQueue, Recorder } from "./monitor_recorder.cjs";

export async function takes(descriptor: number): Promise<Reason | undefined> {
  const left = Recorder.toFile("left", "left.stream");
  try {
    left.event();
    left.event({ inside: 1, waiting: false, greatest: BigInt("9223372036854775807") });
    const id: string = left.send({ inside: 0 });
    left.sendAs("an id of its own", { inside: 1 });
    const own: string = left.send("another id of its own", { inside: 0 }) + left.send("a third");
    left.receive(id);
    left.receive(own);
    const isLast: boolean = left.events === EVENT_LIMIT;
    if (isLast) left.end();
  } catch (error) {
    if (error instanceof NotRecorded) return error.reason;
    throw error;
  } finally {
    left.close();
  }
  const answer: number = await left.strand("worker", async (worker) => worker.events);
  const [text]: [string] = await Promise.all([left.strand("other", () => "done")]);
  const strand: Recorder = left.strand("plain");
  Recorder.current()?.event({ answer, long: text.length });
  const all: number = left.within((recorder) => recorder.events);
  left.join(strand, { all });
  (await Recorder.toPort("right", 7411, { seconds: 3 })).end();
  (await Recorder.toPort("right", 7411, { token: "a token" })).end();
  (await Recorder.fromEnvironment("third")).end();
  Recorder.toFile("fourth", "fourth.stream", { again: true }).end();
  (await Recorder.fromEnvironment("fifth", { again: true })).end();
  new Recorder("other", descriptor).end();
  Recorder.toFile("sixth", "sixth.stream", { long: true }).end();
  (await Recorder.fromEnvironment("seventh", { long: true })).end();
  new Recorder("eighth", descriptor, { long: true }).end();
  return undefined;
}

export async function takesNotes(): Promise<number> {
  const left = Recorder.toFile("left", "left.stream", { notes: true, replace: true });
  left.event({ inside: 1 }, { note: "a text" });
  const id: string = left.send({ inside: 0 }, { note: "a text" }) + left.send("own", {}, { note: "a text" });
  left.receive(id, {}, { note: "a text" });
  (await Recorder.fromEnvironment("right", { replace: true })).end();
  const queue = new RecordedQueue<number>();
  queue.put(7);
  const lock = new RecordedLock();
  await lock.acquire();
  lock.release();
  return lock.hold(() => queue.take());
}

export function refuses(left: Recorder): void {
  // @ts-expect-error: a value is no text
  left.event({ inside: "1" });
  // @ts-expect-error: an id comes before the variables
  left.send({ inside: 1 }, "an id");
  // @ts-expect-error: variables are no Map
  left.event(new Map([["inside", 1]]));
  // @ts-expect-error: a note is an object
  left.event({ inside: 1 }, "a text");
  // @ts-expect-error: a port has no place for notes
  Recorder.toPort("right", 7411, { notes: true });
  // @ts-expect-error: a token is a text
  Recorder.toPort("right", 7411, { token: 7 });
  // @ts-expect-error: a long recording goes to no port
  Recorder.toPort("right", 7411, { long: true });
  // @ts-expect-error: a receipt has an id
  left.receive();
  // @ts-expect-error: what is recorded is not for others to set
  left.events = 0;
  // @ts-expect-error: there may be no current recorder
  Recorder.current().event();
  // @ts-expect-error: a strand is joined by its recorder
  left.join("worker");
  // @ts-expect-error: a recorder for a port comes later
  Recorder.toPort("right", 7411).end();
}
