// The page's own session: a seat from the first line on, until it is ended or the page goes.

import { textOf } from "./live.mjs";

const SHARE = 48; // of 64 seats: one client has no more
const IDLE = 5; // seconds of silence after which the server aborts what is undecided: nobody is to wait for a page

export class Session {
  #socket = null;
  #waiting = []; // {resolve, reject} of each message that isn't answered yet

  /** `onChange()` is called when the session begins or ends. */
  constructor(onChange) {
    this.onChange = onChange;
  }

  get isOpen() {
    return this.#socket !== null;
  }

  /** Sends whole lines as one message. Gives the text of their events and faults. */
  async say(lines) {
    const socket = this.#socket ?? (await this.#open());
    return new Promise((resolve, reject) => {
      this.#waiting.push({ resolve, reject });
      socket.send(lines);
    });
  }

  /** Ends it: its undecided transactions are aborted, and its feeds and protections go. */
  end() {
    const socket = this.#socket;
    if (!socket) return Promise.resolve();
    return new Promise((resolve) => {
      socket.addEventListener("close", resolve);
      socket.close();
    });
  }

  #open() {
    const scheme = location.protocol === "https:" ? "wss" : "ws";
    const socket = new WebSocket(`${scheme}://${location.host}/session?idle=${IDLE}`);
    socket.onmessage = (message) => this.#waiting.shift()?.resolve(message.data);
    socket.onclose = () => this.#ended(socket);
    return new Promise((resolve, reject) => {
      socket.onopen = () => {
        this.#socket = socket;
        this.onChange();
        resolve(socket);
      };
      socket.onerror = async () => reject(new Error(await refusal()));
    });
  }

  #ended(socket) {
    for (const it of this.#waiting.splice(0)) it.reject(new Error("the session has ended"));
    if (this.#socket === socket) {
      this.#socket = null;
      this.onChange();
    }
  }
}

// A browser doesn't tell why it got no WebSocket, so the server is asked.
async function refusal() {
  try {
    const { sessions } = JSON.parse((await textOf("/holders")).split("\n")[0]);
    if (sessions >= SHARE) return "seats: no seat is left for this client. End a session, or try again once one has ended.";
    return "no session: the server refuses one.";
  } catch {
    return "no session: the server doesn't answer.";
  }
}
