/** The types of monitor_recorder.cjs, which says more. */

/** At most so many events has a process. */
export const EVENT_LIMIT: 10_000;
/** At most so many variables has a process. */
export const VARIABLE_LIMIT: 16;
/** At most so many processes has a session: a process and its strands are as many at most. */
export const PROCESS_LIMIT: 16;
/** At most so many bytes has the name of a process or of a variable. */
export const NAME_BYTE_LIMIT: 32;
/** At most so many bytes of UTF-8 has the id of a message, and at least one. */
export const ID_BYTE_LIMIT: 64;
/** At most so many events has a process of a long recording. */
export const LONG_EVENT_LIMIT: 2_147_483_647;
/** At most so many processes are a process of a long recording and its strands. */
export const LONG_PROCESS_LIMIT: 4_096;
/** At most so many bytes of UTF-8 has the id of a message in a long recording. */
export const LONG_ID_BYTE_LIMIT: 1_024;
/** At most so many bytes of UTF-8 has a note of its text, and of its place's file: what is longer is cut. */
export const NOTE_BYTE_LIMIT: 1_024;
/** At most so many bytes of UTF-8 has a token. */
export const TOKEN_BYTE_LIMIT: 1_024;

/** Why a call was refused. */
export type Reason =
  /** No name of a process: letters, digits and _, at most 32, no digit first, no word of predicates. */
  | "process-name"
  /** No name of a variable. */
  | "variable-name"
  /** No whole number of 64 bits with a sign, or a number above 2**53 that is no bigint. */
  | "value"
  /** The variables are no object, as { inside: 1 }. */
  | "settings"
  /** A process has at most 16 variables. */
  | "variables"
  /** A process has at most 10,000 events, or 2,147,483,647 in a long recording. The last one of a strand is its end. */
  | "events"
  /** The id of a message has 1 to 64 bytes of UTF-8, or 1,024 in a long recording. */
  | "id"
  /** The process has sent or received a message with this id before, so a receipt is that of a second copy. */
  | "id-twice"
  /** The recording has ended, or was closed. */
  | "ended"
  /** The name is that of the process or of another strand of it. */
  | "name-twice"
  /** A process and its strands are at most 16, or 4,096 in a long recording. */
  | "processes"
  /** The recorder was made for an open file, so there is no place for the stream of a strand. */
  | "no-place"
  /** What is to be joined is no strand that has ended. */
  | "not-ended"
  /** MONITOR_TO isn't set, or names no folder, port or socket that there can be. */
  | "place"
  /** An earlier incarnation of the process still runs. */
  | "running"
  /** No earlier incarnation can be told, as of a connection, of a file that is replaced, or on this system. */
  | "again"
  /** A long recording goes to no connection, or MONITOR_LONG is neither 1 nor 0. */
  | "long"
  /** The token that is given, or MONITOR_TOKEN, is over 1,024 bytes of UTF-8, or has a LF, CR, NUL or U+FFFD. */
  | "token"
  /** There is no place for notes, as at a port, or MONITOR_NOTES is neither 1 nor 0. */
  | "notes"
  /** What stands where a note may is none, as { note: "a text" }. */
  | "note"
  /** An earlier line could not be written, so none is any more. */
  | "broken";

/** A call was refused and wrote nothing. Other errors are the system's: a part of the line may have been written. */
export class NotRecorded extends Error {
  constructor(reason: Reason, message: string);
  readonly name: "NotRecorded";
  readonly reason: Reason;
}

/** Variables, and the values that they have from now on: whole numbers, or true for 1 and false for 0. */
export type Variables = Readonly<Record<string, number | bigint | boolean>>;

/**
 * A lock between tasks, whose release is a message to whoever acquires it next: a send of the current recorder and a
 * receipt, if that is another one. So what the lock keeps apart is kept apart in the recording. But the order in which
 * it was acquired is a cause then, and no other order is judged. Those who wait get it in their order.
 */
export class RecordedLock {
  /** Waits until the lock is free, holds it, and records the receipt. If that is refused the lock isn't held. */
  acquire(): Promise<void>;

  /** Records the send, and releases the lock, whatever becomes of the send. */
  release(): void;

  /** Calls a function, and holds the lock until what it gives has settled, which is given back. */
  hold<T>(work: () => T): Promise<Awaited<T>>;

  get isHeld(): boolean;
}

/**
 * A queue between tasks, whose values are messages: to put one in is a send of the current recorder, and to take it out
 * a receipt, if that is another one. What no recorder puts in or takes out is no message.
 */
export class RecordedQueue<T = unknown> {
  /** Records the send, and puts the value in. */
  put(value: T): void;

  /** Waits for a value, takes it out, and records the receipt. If that is refused the value is lost with it. */
  take(): Promise<T>;

  /** How many values are in it. */
  get size(): number;
}

/** The text of an event's note. It says nothing if events have no notes. */
export type Noted = Readonly<{ note: string }>;

/** The recording of one process, or of a strand of one. It writes its first line when it is made. */
export class Recorder {
  /** Records to a file, a pipe or the like that is open for writing, which is closed with the recorder. */
  constructor(process: string, descriptor: number, options?: { long?: boolean });

  /**
   * Records to a new file. One that is there already is an error with the code EEXIST; with `replace` it is lost, with
   * its notes. With `notes` each event gets a note, in a file beside: that of `left.stream` is `left.notes.jsonl`. The
   * path has to end with `.stream` then. docs/RECORDING.md has the format. With `again` a further incarnation is
   * recorded, as of `left` and `left.stream` the second one is `left_2` in `left_2.stream`. With `long`, or
   * MONITOR_LONG=1 in the environment, it is a long recording, which monitor_reduce.py reduces before it is judged.
   */
  static toFile(
    process: string,
    path: string,
    options?: { again?: boolean; long?: boolean; notes?: boolean; replace?: boolean },
  ): Recorder;

  /**
   * Records to `monitor serve` on a port of this machine, 1 to 65,534, which may listen up to ten seconds later, or as
   * many as are given; if nobody does by then, it is an error with the code ECONNREFUSED. A later call waits, and keeps
   * the whole thread waiting, while the monitor doesn't read. Each connection begins with the token, if there is one,
   * as the line that `monitor serve --token` asks for: this text or, without it, MONITOR_TOKEN in the environment.
   */
  static toPort(process: string, port: number, options?: { seconds?: number; token?: string }): Promise<Recorder>;

  /**
   * Records to where MONITOR_TO in the environment says, so that no code changes between a test and a live session: to
   * a new file NAME.stream in a folder of this name, which is made if there is none; or to `monitor serve`, on a port
   * of this machine, of :7411 or localhost:7411, on one of another machine, of host:7411 or [fe80::1]:7411, or by a
   * Unix socket, of unix:/run/monitor.sock. With MONITOR_NOTES=1 each event gets a note beside the file. A connection
   * has no place for notes, keeps no earlier incarnation, and is judged within the limits of a session, so notes,
   * `again` and `long` are refused with one. It begins with MONITOR_TOKEN, as that of `toPort`. What has a colon and
   * no slash is no folder.
   */
  static fromEnvironment(
    process: string,
    options?: { again?: boolean; long?: boolean; replace?: boolean },
  ): Promise<Recorder>;

  /** The recorder with which this code was called by `within` or `strand`, or undefined. */
  static current(): Recorder | undefined;

  /** Calls a function, to which and to whatever it calls or awaits this recorder is the current one. */
  within<T>(work: (recorder: Recorder) => T): T;

  /**
   * Begins a strand, for an async function that waits beside others: a recorder which is a process of the session, of
   * this name. It is recorded to NAME.stream beside the file of this recorder, or to the same port. This process sends
   * it a message. A strand ends by `end`, or by `close`; then it sends a message to whoever `join`s it. It ends with
   * its process at the latest.
   */
  strand(name: string): Recorder;

  /**
   * The same, with a function that is called within the strand, which ends when what it gives has settled, in either
   * way. What is given back then can be awaited, for the same, and this process joins the strand where it is awaited.
   */
  strand<T>(name: string, work: (strand: Recorder) => T): PromiseLike<Awaited<T>>;

  /**
   * This process has waited for a strand, which has ended: call it AFTER that. It receives the strand's last message;
   * these variables have these values from now on.
   */
  join(strand: Recorder, variables?: Variables, options?: Noted): void;

  /**
   * Something happened in this process; these variables have these values from now on. Last in this call, and in those
   * of `send`, `sendAs`, `receive` and `join`, `{ note: "a text" }` may stand, the text of the event's note.
   */
  event(variables?: Variables, options?: Noted): void;

  /**
   * This process sends a message to one other or, if the document is of version 2, to several: call it once, BEFORE
   * the message leaves. The id that it makes, the process's name and a counter as in `left-1`, has to travel with the
   * message.
   */
  send(variables?: Variables, options?: Noted): string;

  /** The same, with an id that no other send of the session has, which it gives back: as `sendAs`. */
  send(message: string, variables?: Variables, options?: Noted): string;

  /** The same, with an id that no other send of the session has. */
  sendAs(message: string, variables?: Variables, options?: Noted): void;

  /** A message has come, with this id: call it AFTER that. A second copy of a message is refused as `id-twice`. */
  receive(message: string, variables?: Variables, options?: Noted): void;

  /** How many events are recorded. */
  get events(): number;

  /**
   * Nothing more happens in this process: writes the end line, and closes; its strands that have not ended get theirs.
   * A strand sends its last message before. A second call does nothing.
   */
  end(): void;

  /**
   * Closes the file or connection. Without `end` before, the stream has no end line, and neither have those of its
   * strands that have not ended. A strand ends by it, as by `end`. A second call does nothing.
   */
  close(): void;
}
