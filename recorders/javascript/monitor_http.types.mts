// What the types of monitor_http take and refuse: nothing of it is run. With TypeScript 4.7 or later:
// tsc --strict --noEmit --module node16 --moduleResolution node16 --target es2022 monitor_http.types.mts
import { byClient, idOfTrace, recordClients, recordServer, ServerRequest } from "./monitor_http.cjs";
import { Recorder } from "./monitor_recorder.cjs";

/** As the server and the request of node:http are, whose types aren't there without a package. */
declare class Server {
  emit(event: string | symbol, ...words: any[]): boolean;
  listen(port: number): this;
}

interface Incoming extends ServerRequest {
  complete: boolean;
}

export function takes(server: Server, recorder: Recorder): void {
  recordServer(server, recorder).listen(7410);
  recordServer(server, recorder, { strand: (request) => request.url?.slice(1), trace: false });
  recordServer(server, recorder, { strand: (request: Incoming) => (request.complete ? "whole" : undefined) });
  recordServer(server, recorder, { strand: ({ headers }) => String(headers["x-client"]) });
  recordServer(server, recorder, { strand: byClient("right") });
  const undo: () => void = recordClients();
  undo();
  recordClients(recorder)();
  const id: string | undefined = idOfTrace(undefined);
  if (id !== undefined) recorder.receive(id);
}

export function refuses(server: Server, recorder: Recorder): void {
  // @ts-expect-error: a server has a recorder
  recordServer(server);
  // @ts-expect-error: what emits nothing is no server
  recordServer({ listen: 1 }, recorder);
  // @ts-expect-error: a strand is named by a function
  recordServer(server, recorder, { strand: "worker" });
  // @ts-expect-error: a name is a text
  recordServer(server, recorder, { strand: () => 7 });
  // @ts-expect-error: there may be no trace
  recorder.receive(idOfTrace("none"));
}
