// Starts the language server `hume server`, and shows what it tells: errors, warnings, the bounds of a box, and where a name is declared.
// It needs nothing but VS Code itself. The setting `hume.command` names the command where it isn't on the PATH.
"use strict";
const vscode = require("vscode");
const { spawn } = require("child_process");

// The server's process, and the answers that are waited for.
class Server {
  constructor(command, found) {
    this.found = found;
    this.waiting = new Map();
    this.number = 0;
    this.rest = Buffer.alloc(0);
    this.process = spawn(command, ["server"], { stdio: ["pipe", "pipe", "ignore"] });
    this.process.on("error", (error) => vscode.window.showWarningMessage(`hume: ${error.message}; the setting hume.command names the command`));
    this.process.stdin.on("error", () => {});
    this.process.stdout.on("data", (part) => this.read(part));
  }

  send(message) {
    const text = Buffer.from(JSON.stringify({ jsonrpc: "2.0", ...message }));
    this.process.stdin.write(Buffer.concat([Buffer.from(`Content-Length: ${text.length}\r\n\r\n`), text]));
  }

  note(method, params) {
    this.send({ method, params });
  }

  ask(method, params) {
    const id = ++this.number;
    this.send({ id, method, params });
    return new Promise((answer) => this.waiting.set(id, answer));
  }

  read(part) {
    this.rest = Buffer.concat([this.rest, part]);
    for (let head; (head = this.rest.indexOf("\r\n\r\n")) >= 0; ) {
      const end = head + 4 + Number(/Content-Length: (\d+)/.exec(this.rest.toString("latin1", 0, head))[1]);
      if (this.rest.length < end) return;
      const message = JSON.parse(this.rest.toString("utf8", head + 4, end));
      this.rest = this.rest.subarray(end);
      this.take(message);
    }
  }

  take(message) {
    if (message.method === "textDocument/publishDiagnostics") this.found(message.params);
    const answer = this.waiting.get(message.id);
    this.waiting.delete(message.id);
    if (answer) answer(message.result || null);
  }

  stop() {
    this.ask("shutdown").then(() => this.note("exit"));
  }
}

const range = (it) => new vscode.Range(it.start.line, it.start.character, it.end.line, it.end.character);

function diagnostic(it) {
  const severity = it.severity === 1 ? vscode.DiagnosticSeverity.Error : vscode.DiagnosticSeverity.Warning;
  return Object.assign(new vscode.Diagnostic(range(it.range), it.message, severity), { source: it.source, code: it.code });
}

function activate(context) {
  const collection = vscode.languages.createDiagnosticCollection("hume");
  const found = ({ uri, diagnostics }) => collection.set(vscode.Uri.parse(uri), diagnostics.map(diagnostic));
  const server = new Server(vscode.workspace.getConfiguration("hume").get("command"), found);
  const name = (document) => document.uri.toString();
  const place = (document, position) => ({ textDocument: { uri: name(document) }, position: { line: position.line, character: position.character } });
  const ours = (tell) => (document) => document.languageId === "hume" && tell(document);
  const opened = ours((it) => server.note("textDocument/didOpen", { textDocument: { uri: name(it), languageId: "hume", version: 1, text: it.getText() } }));
  const changed = ours((it) => server.note("textDocument/didChange", { textDocument: { uri: name(it) }, contentChanges: [{ text: it.getText() }] }));
  const closed = ours((it) => server.note("textDocument/didClose", { textDocument: { uri: name(it) } }));
  async function provideHover(document, position) {
    const answer = await server.ask("textDocument/hover", place(document, position));
    return answer && new vscode.Hover(new vscode.MarkdownString(answer.contents.value), range(answer.range));
  }
  async function provideDefinition(document, position) {
    const answer = await server.ask("textDocument/definition", place(document, position));
    return answer && new vscode.Location(vscode.Uri.parse(answer.uri), range(answer.range));
  }
  server.ask("initialize", { processId: process.pid, rootUri: null, capabilities: {} });
  server.note("initialized", {});
  vscode.workspace.textDocuments.forEach(opened);
  context.subscriptions.push(
    collection,
    { dispose: () => server.stop() },
    vscode.workspace.onDidOpenTextDocument(opened),
    vscode.workspace.onDidChangeTextDocument((it) => changed(it.document)),
    vscode.workspace.onDidCloseTextDocument(closed),
    vscode.languages.registerHoverProvider("hume", { provideHover }),
    vscode.languages.registerDefinitionProvider("hume", { provideDefinition })
  );
}

module.exports = { activate };
