"use strict";
// A client of tgrep's warm server (docs/SERVER.md) for Node:
//   const tgrep = await Tgrep.open("src");
//   const { documents, more } = await tgrep.find("malloc", { whole_words: true, units: "utf-16" });
const { execFile } = require("node:child_process");
const { EventEmitter } = require("node:events");
const [fs, net] = [require("node:fs"), require("node:net")];

class Tgrep extends EventEmitter {
  static open(folder, command = "tgrep") {
    return new Promise((resolve, reject) => {
      if (folder && !fs.statSync(folder, { throwIfNoEntry: false })?.isDirectory()) return reject(new Error(`${folder} is no folder`));
      execFile(command, ["--socket"], { cwd: folder }, (fault, out, said) => {
        if (fault || !out.startsWith("{")) return reject(new Error(said.trim() || fault?.message || `${command} is not tgrep`));
        const socket = net.connect(JSON.parse(out).socket, () => resolve(new Tgrep(socket)));
        socket.once("error", reject);
      });
    });
  }

  constructor(socket) {
    super();
    Object.assign(this, { socket, last: 0, waiting: new Map(), rest: "" });
    socket.setEncoding("utf8").on("data", (text) => this.take(text)).on("close", () => this.leave());
  }

  take(text) {
    const lines = (this.rest + text).split("\n");
    this.rest = lines.pop();
    for (const message of lines.map((line) => JSON.parse(line))) {
      const asked = this.waiting.get(message.id);
      if (message.event) this.emit(message.event, message);
      if (!asked) continue;
      if (message.done || message.error) this.waiting.delete(message.id);
      if (message.error) asked.reject(Object.assign(new Error(message.error.message), message.error));
      else if (message.done) asked.resolve(message);
      else asked.part(message);
    }
  }

  leave() {
    for (const { reject } of this.waiting.values()) reject(new Error("the server has ended"));
    this.waiting.clear();
  }

  // The last message of the answer to a request; `part` is called with each one before.
  ask(does, given = {}, part = () => {}) {
    return new Promise((resolve, reject) => {
      this.waiting.set(++this.last, { resolve, reject, part });
      this.socket.write(JSON.stringify({ id: this.last, do: does, ...given }) + "\n");
    });
  }

  async find(pattern, options = {}) {
    const documents = [];
    const last = await this.ask("find", { pattern, ...options }, (part) => documents.push(...(part.documents ?? [])));
    return { ...last, documents };
  }
}
module.exports = { Tgrep };
