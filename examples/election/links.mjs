/** How members reach each other: over TCP, with the time that it takes within a site and between two. */
import { once } from "node:events";
import net from "node:net";
import readline from "node:readline";

const [WITHIN_SITE, BETWEEN_SITES] = [5, 300]; // milliseconds

/** The way from one member to another. If the connection breaks, what has no answer is sent again by a new one. */
export class Link {
  #delay;
  #port;
  #socket;
  #unanswered = [];

  constructor(from, to, port) {
    this.#delay = from.slice(0, 5) === to.slice(0, 5) ? WITHIN_SITE : BETWEEN_SITES;
    this.#port = port;
  }

  /** Sends a message. One that is to be answered may be sent again, until `isAnswered` is called. */
  send(message, toBeAnswered) {
    if (toBeAnswered) this.#unanswered.push(message);
    setTimeout(() => this.#write(message), this.#delay);
  }

  isAnswered() {
    this.#unanswered = [];
  }

  close() {
    this.#unanswered = [];
    this.#socket?.destroy();
  }

  #write(message) {
    this.#socket ??= this.#connected();
    this.#socket.write(`${JSON.stringify(message)}\n`);
  }

  #connected() {
    const socket = net.connect({ host: "127.0.0.1", port: this.#port, noDelay: true });
    socket.on("error", () => {}); // it closes then
    socket.on("close", () => {
      this.#socket = undefined;
      for (const message of this.#unanswered) this.send(message, false);
    });
    return socket;
  }
}

/** Hands each message that comes to `hear`, with the connection over which it has come. */
export async function listen(hear) {
  const sockets = new Set();
  const server = net.createServer((socket) => {
    sockets.add(socket);
    socket.on("error", () => {}); // it closes then
    readline.createInterface({ input: socket }).on("line", (line) => hear(JSON.parse(line), socket));
  });
  await once(server.listen(0, "127.0.0.1"), "listening");
  return {
    port: server.address().port,
    close() {
      server.close();
      for (const socket of sockets) socket.destroy();
    },
  };
}
