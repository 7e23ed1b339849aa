/** The types of monitor_http.cjs, which says more. They need no types of Node. */
import { Recorder } from "./monitor_recorder.cjs";

/** What of a request, which is an `IncomingMessage` of node:http, its strand may be named by. */
export interface ServerRequest {
  method?: string | undefined;
  url?: string | undefined;
  headers: Record<string, string | string[] | undefined>;
}

/** How the requests that come to a server are recorded. */
export interface ServerOptions {
  /** Names the strand of a request, or gives undefined if the process itself is to record it. */
  strand?(request: ServerRequest): string | undefined;
  /** Is a request without an id of ours received by that of its `traceparent`? It is unless this is false. */
  trace?: boolean;
}

/**
 * Records the requests that come to a server of node:http or node:https, and gives the server. In the functions that
 * handle a request this recorder, or its strand, is the `Recorder.current()`.
 */
export function recordServer<S extends { emit(...words: never[]): boolean }>(
  server: S,
  recorder: Recorder,
  options?: ServerOptions,
): S;

/**
 * Records the requests of this process by fetch, by node:http and by node:https: the `Recorder.current()` does, or else
 * this one, or else they aren't recorded. What this gives is a function that undoes it; until then a second call throws
 * an Error.
 */
export function recordClients(recorder?: Recorder): () => void;

/** For `strand`: a request is recorded by a strand of its client, `right_left` if `left` asks the process `right`. */
export function byClient(process: string): (request: ServerRequest) => string | undefined;

/** The id of a message with this header `traceparent`, or undefined if that is none by W3C's Trace Context. */
export function idOfTrace(text: string | undefined): string | undefined;
