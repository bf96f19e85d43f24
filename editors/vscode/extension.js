// Starts `rbg_author lsp` and passes on to it what VS Code asks of descriptions of games. It needs nothing but VS Code.
"use strict";

const { spawn } = require("child_process");
const vscode = require("vscode");

const LANGUAGE = { language: "rbg", scheme: "file" };

/** A talk with the server: requests with their answers, and notices. */
class Talk {
  constructor(program, onNotice, onEnd) {
    this.waiting = new Map();
    this.last = 0;
    this.bytes = Buffer.alloc(0);
    this.onNotice = onNotice;
    this.child = spawn(program, ["lsp"], { stdio: ["pipe", "pipe", "inherit"] });
    this.child.stdout.on("data", (bytes) => this.take(bytes));
    this.child.stdin.on("error", () => {});
    this.child.on("error", (error) => this.end(onEnd, error));
    this.child.on("exit", () => this.end(onEnd, undefined));
  }

  /** Sends a message with its header. */
  send(message) {
    const body = Buffer.from(JSON.stringify({ jsonrpc: "2.0", ...message }), "utf8");
    this.child.stdin.write(`Content-Length: ${body.length}\r\n\r\n`);
    this.child.stdin.write(body);
  }

  notify(method, params) {
    this.send({ method, params });
  }

  /** The answer to a request. */
  ask(method, params) {
    this.last += 1;
    const id = this.last;
    return new Promise((resolve, reject) => {
      this.waiting.set(id, { resolve, reject });
      this.send({ id, method, params });
    });
  }

  /** Takes bytes that the server sent, and hands on each whole message. */
  take(bytes) {
    this.bytes = Buffer.concat([this.bytes, bytes]);
    for (;;) {
      const end = this.bytes.indexOf("\r\n\r\n");
      if (end < 0) return;
      const length = Number(/content-length:\s*(\d+)/i.exec(this.bytes.toString("ascii", 0, end))[1]);
      if (this.bytes.length < end + 4 + length) return;
      const body = this.bytes.toString("utf8", end + 4, end + 4 + length);
      this.bytes = this.bytes.subarray(end + 4 + length);
      this.hear(JSON.parse(body));
    }
  }

  hear(message) {
    const asked = this.waiting.get(message.id);
    if (message.method) {
      this.onNotice(message.method, message.params);
    } else if (asked) {
      this.waiting.delete(message.id);
      if (message.error) asked.reject(new Error(message.error.message));
      else asked.resolve(message.result);
    }
  }

  end(onEnd, error) {
    for (const { reject } of this.waiting.values()) reject(error ?? new Error("the server has ended"));
    this.waiting.clear();
    onEnd(error);
  }
}

const place = (it) => ({ line: it.line, character: it.character });
const range = (it) => new vscode.Range(it.start.line, it.start.character, it.end.line, it.end.character);
const location = (it) => new vscode.Location(vscode.Uri.parse(it.uri), range(it.range));
const edit = (it) => new vscode.TextEdit(range(it.range), it.newText);
const named = (document) => ({ uri: document.uri.toString() });
const at = (document, position) => ({ textDocument: named(document), position: place(position) });

function diagnostic(it) {
  const severity = it.severity === 1 ? vscode.DiagnosticSeverity.Error : vscode.DiagnosticSeverity.Warning;
  const made = new vscode.Diagnostic(range(it.range), it.message, severity);
  made.source = it.source;
  made.code = it.code;
  made.relatedInformation = it.relatedInformation.map(
    (other) => new vscode.DiagnosticRelatedInformation(location(other.location), other.message),
  );
  return made;
}

function symbol(it) {
  const made = new vscode.DocumentSymbol(it.name, it.detail, it.kind - 1, range(it.range), range(it.selectionRange));
  made.children = it.children.map(symbol);
  return made;
}

function completion(it) {
  const made = new vscode.CompletionItem(it.label, it.kind - 1);
  made.detail = it.detail;
  return made;
}

function renaming(found) {
  const made = new vscode.WorkspaceEdit();
  for (const [uri, edits] of Object.entries(found.changes)) made.set(vscode.Uri.parse(uri), edits.map(edit));
  return made;
}

/** What VS Code asks, passed on to the server. */
function providers(talk) {
  const languages = vscode.languages;
  return [
    languages.registerHoverProvider(LANGUAGE, {
      provideHover: async (document, position) => {
        const found = await talk.ask("textDocument/hover", at(document, position));
        return found && new vscode.Hover(new vscode.MarkdownString(found.contents.value), range(found.range));
      },
    }),
    languages.registerDefinitionProvider(LANGUAGE, {
      provideDefinition: async (document, position) =>
        (await talk.ask("textDocument/definition", at(document, position))).map(location),
    }),
    languages.registerReferenceProvider(LANGUAGE, {
      provideReferences: async (document, position, context) =>
        (await talk.ask("textDocument/references", { ...at(document, position), context })).map(location),
    }),
    languages.registerRenameProvider(LANGUAGE, {
      prepareRename: async (document, position) => {
        const found = await talk.ask("textDocument/prepareRename", at(document, position));
        if (!found) throw new Error("there is no name that can be another one");
        return range(found);
      },
      provideRenameEdits: async (document, position, newName) =>
        renaming(await talk.ask("textDocument/rename", { ...at(document, position), newName })),
    }),
    languages.registerCompletionItemProvider(
      LANGUAGE,
      {
        provideCompletionItems: async (document, position) =>
          (await talk.ask("textDocument/completion", at(document, position))).map(completion),
      },
      "#", ">", "{", "[", "$",
    ),
    languages.registerDocumentSymbolProvider(LANGUAGE, {
      provideDocumentSymbols: async (document) =>
        (await talk.ask("textDocument/documentSymbol", { textDocument: named(document) })).map(symbol),
    }),
    languages.registerDocumentFormattingEditProvider(LANGUAGE, {
      provideDocumentFormattingEdits: async (document, options) =>
        ((await talk.ask("textDocument/formatting", { textDocument: named(document), options })) ?? []).map(edit),
    }),
  ];
}

/** What VS Code says of its documents, passed on to the server. */
function documents(talk) {
  const open = (document) => {
    if (document.languageId !== "rbg") return;
    const { version } = document;
    const textDocument = { ...named(document), languageId: "rbg", version, text: document.getText() };
    talk.notify("textDocument/didOpen", { textDocument });
  };
  const change = ({ document, contentChanges }) => {
    if (document.languageId !== "rbg" || !contentChanges.length) return;
    const changes = contentChanges.map((it) => ({
      range: { start: place(it.range.start), end: place(it.range.end) },
      text: it.text,
    }));
    const textDocument = { ...named(document), version: document.version };
    talk.notify("textDocument/didChange", { textDocument, contentChanges: changes });
  };
  const close = (document) => {
    if (document.languageId === "rbg") talk.notify("textDocument/didClose", { textDocument: named(document) });
  };
  vscode.workspace.textDocuments.forEach(open);
  return [
    vscode.workspace.onDidOpenTextDocument(open),
    vscode.workspace.onDidChangeTextDocument(change),
    vscode.workspace.onDidCloseTextDocument(close),
  ];
}

let current;

async function activate(context) {
  const program = vscode.workspace.getConfiguration("rbg").get("program") || "rbg_author";
  const found = vscode.languages.createDiagnosticCollection("rbg");
  const notice = (method, params) => {
    if (method === "textDocument/publishDiagnostics") {
      found.set(vscode.Uri.parse(params.uri), params.diagnostics.map(diagnostic));
    }
  };
  const ended = (error) => {
    current = undefined;
    if (error) vscode.window.showErrorMessage(`rbg: ${program} can't be started: ${error.message}`);
  };
  const talk = new Talk(program, notice, ended);
  current = talk;
  context.subscriptions.push(found);
  await talk.ask("initialize", { processId: process.pid, rootUri: null, capabilities: {} });
  talk.notify("initialized", {});
  context.subscriptions.push(...providers(talk), ...documents(talk));
}

async function deactivate() {
  if (!current) return;
  await current.ask("shutdown", null);
  current.notify("exit", null);
}

module.exports = { activate, deactivate };
