/** Requests, and the processes or threads that answer them. */

import { spawn } from "node:child_process";

import { ProgramEnd } from "modinfo/internal/core/errors.cjs";

export type Answer = { value: Buffer | string, error?: undefined } | { value?: undefined, error: Error };
/** With its end. */
type Text = string | Uint8Array;
/** A process or a thread, which answers one request at a time. */
type Lane = { send(text: Text): void, kill(): void };

interface Events {
  /** Takes the answer to the request. Returns false where there is none. */
  onAnswer(answer: Answer): boolean;
  /** The lane has ended or, with `isUnstarted`, couldn't be started. Later calls do nothing. */
  onEnd(why: string, isUnstarted?: boolean): void;
}

/** `name` is how messages begin; `start` throws an error where the system refuses a lane. */
export type Kind = { name: string, start(events: Events): Lane };

/** Suspect where a lane ended over it */
interface Request {
  text: Text;
  isSuspect?: boolean;
  resolve: (value: Buffer | string | Promise<never>) => void;
  reject: (error: Error) => void;
}

type Place = { lane?: Lane, request?: Request };
const HINT = "the option program or the environment variable MODINFO names another";

/** Lanes are started as requests come, and run until `kill`. A request over which one ends is tried once more. */
export class Pool {
  #waiting: Request[] = [];
  #places = new Set<Place>();
  #isKilled = false;

  /** @param most the most lanes at once */
  constructor(private readonly kind: Kind, private most: number) {}

  /**
   * @returns the value of the answer; rejected with its error, or with a `ProgramEnd` where a lane ends twice over
   *   the request or can't be started
   */
  run(text: Text): Promise<Buffer | string> {
    return new Promise((resolve, reject) => {
      this.#waiting.push({ text, resolve, reject });
      if (this.#isKilled) {
        this.#refuse("was ended");
      }
      this.#deal();
    });
  }

  /** Ends the lanes at once. Requests without an answer are rejected. */
  kill() {
    this.#isKilled = true;
    this.#refuse("was ended");
    for (const place of this.#places) {
      place.lane?.kill();
      this.#onEnd(place, "was ended");
    }
  }

  #deal() {
    while (this.#waiting.length > 0) {
      const idle = [...this.#places].find(({ request }) => !request);
      const place = idle ?? (this.#places.size < this.most ? this.#start() : undefined);
      const request = place && this.#waiting.shift();
      if (!request) {
        return;
      }
      place.request = request;
      place.lane?.send(request.text);
    }
  }

  #start(): Place | undefined {
    const place: Place = {};
    try {
      place.lane = this.kind.start({
        onAnswer: (answer) => this.#onAnswer(place, answer),
        onEnd: (why, isUnstarted) => this.#onEnd(place, why, isUnstarted),
      });
      this.#places.add(place);
      return place;
    } catch (error) {
      this.#onUnstarted((error as Error).message);
      return undefined;
    }
  }

  #onAnswer(place: Place, { value, error }: Answer) {
    const request = this.#places.has(place) ? place.request : undefined;
    place.request = undefined;
    request?.resolve(error ? Promise.reject(error) : value);
    this.#deal();
    return request !== undefined;
  }

  #onEnd(place: Place, why: string, isUnstarted = false) {
    if (!this.#places.delete(place)) {
      return;
    }
    const { request } = place;
    if (request?.isSuspect || this.#isKilled) {
      request?.reject(this.#endOf(why));
    } else if (request) {
      // It is the next.
      this.#waiting.unshift(Object.assign(request, { isSuspect: !isUnstarted }));
    }
    if (isUnstarted) {
      this.#onUnstarted(why);
    }
    this.#deal();
  }

  /** Where a lane can't be started, those that there are have to do; without any, nothing can be done. */
  #onUnstarted(why: string) {
    if (this.#places.size > 0) {
      this.most = this.#places.size;
    } else {
      this.#refuse(`can't be started: ${why} (${HINT})`);
    }
  }

  #refuse(why: string) {
    this.#waiting.splice(0).forEach(({ reject }) => reject(this.#endOf(why)));
  }

  #endOf(why: string) {
    return new ProgramEnd(`${this.kind.name} ${why}`);
  }
}

const KEPT_ERRORS = 2000;
const LINE_FEED = 0x0a;
/** `read` returns the answer on a line of the output; nothing where it is none. */
type Command = { program: string, words: string[], read: (line: Buffer) => Answer | undefined };

export function processesOf({ program, words, read }: Command): Kind {
  const start = ({ onAnswer, onEnd }: Events): Lane => {
    const child = spawn(program, words);
    const { stdin, stdout, stderr } = child;
    let errors = "";
    child.on("error", ({ message }) => child.pid || onEnd(message, true));
    child.once("close", (status, signal) => {
      onEnd(`ended ${signal ? `by ${signal}` : `with status ${status}`}${errors.trim() && `: ${errors.trim()}`}`);
    });
    if (child.pid) {
      // The error of a write is less helpful than how the process ends.
      stdin.on("error", () => {});
      stderr.setEncoding("utf8").on("data", (text) => (errors = (errors + text).slice(-KEPT_ERRORS)));
      readLines(stdout, (line) => {
        const answer = read(line);
        if (!answer || !onAnswer(answer)) {
          // Which answer belongs to which request isn't known any more.
          child.kill("SIGKILL");
          onEnd(`printed an invalid answer: ${line.toString().slice(0, 100)}`);
        }
      });
    }
    return { send: (text) => stdin?.write(text), kill: () => child.kill("SIGKILL") };
  };
  return { name: program, start };
}

function readLines(stream: NodeJS.ReadableStream, onLine: (line: Buffer) => void) {
  const begun: Buffer[] = [];
  stream.on("data", (bytes: Buffer) => {
    let from = 0;
    for (let at = bytes.indexOf(LINE_FEED); at >= 0; at = bytes.indexOf(LINE_FEED, from)) {
      onLine(Buffer.concat([...begun.splice(0), bytes.subarray(from, at)]));
      from = at + 1;
    }
    begun.push(bytes.subarray(from));
  });
}
