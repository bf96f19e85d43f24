// Tries extension.js without VS Code, from the top of the repository: RBG_AUTHOR=./rbg_author node editors/vscode/try.js
// It stands in for what the extension uses of VS Code, opens a game, changes it, and asks each provider once.
"use strict";

const fs = require("fs");
const Module = require("module");
const assert = require("assert");

class Range {
  constructor(line, character, endLine, endCharacter) {
    this.start = { line, character };
    this.end = { line: endLine, character: endCharacter };
  }
}
class Plain {
  constructor(...parts) {
    this.parts = parts;
  }
}
const Uri = { parse: (text) => ({ toString: () => text }) };
const told = new Map();
const asked = {};
const heard = {};
const register = (name) => (_, provider) => {
  asked[name] = provider;
  return { dispose() {} };
};
const listen = (name) => (listener) => {
  heard[name] = listener;
  return { dispose() {} };
};
const document = {
  languageId: "rbg",
  version: 1,
  uri: Uri.parse("file:///game.rbg"),
  text: fs.readFileSync("crates/rbg_games/data/breakthrough.rbg", "utf8"),
  getText() {
    return this.text;
  },
};
const vscode = {
  Range,
  Uri,
  Location: Plain,
  Hover: Plain,
  MarkdownString: Plain,
  TextEdit: Plain,
  DiagnosticRelatedInformation: Plain,
  CompletionItem: Plain,
  DocumentSymbol: Plain,
  Diagnostic: Plain,
  DiagnosticSeverity: { Error: 0, Warning: 1 },
  WorkspaceEdit: class {
    set(uri, edits) {
      this.edits = edits;
    }
  },
  languages: {
    createDiagnosticCollection: () => ({ set: (uri, found) => told.set(uri.toString(), found) }),
    registerHoverProvider: register("hover"),
    registerDefinitionProvider: register("definition"),
    registerReferenceProvider: register("references"),
    registerRenameProvider: register("rename"),
    registerCompletionItemProvider: register("completion"),
    registerDocumentSymbolProvider: register("symbols"),
    registerDocumentFormattingEditProvider: register("formatting"),
  },
  window: { showErrorMessage: (text) => assert.fail(text) },
  workspace: {
    textDocuments: [document],
    getConfiguration: () => ({ get: () => process.env.RBG_AUTHOR }),
    onDidOpenTextDocument: listen("open"),
    onDidChangeTextDocument: listen("change"),
    onDidCloseTextDocument: listen("close"),
  },
};
const load = Module._load;
Module._load = (name, ...others) => (name === "vscode" ? vscode : load(name, ...others));
const extension = require("./extension.js");

async function until(is_there) {
  for (let left = 1000; !is_there(); left -= 1) {
    assert(left, "nothing came");
    await new Promise((resolve) => setTimeout(resolve, 20));
  }
}

async function main() {
  await extension.activate({ subscriptions: [] });
  const uri = document.uri.toString();
  await until(() => told.get(uri)?.length === 0);
  const at = (line, character) => ({ line: line - 1, character });
  const hover = await asked.hover.provideHover(document, at(10, 13));
  assert(hover.parts[0].parts[0].startsWith("piece `w`, number 1"));
  assert.equal((await asked.definition.provideDefinition(document, at(24, 6))).length, 1);
  assert.equal((await asked.references.provideReferences(document, at(24, 6), { includeDeclaration: true })).length, 2);
  assert.equal((await asked.rename.prepareRename(document, at(24, 6))).end.character, 13);
  assert.equal((await asked.rename.provideRenameEdits(document, at(24, 6), "somewhere")).edits.length, 2);
  assert.equal((await asked.completion.provideCompletionItems(document, at(24, 15))).length, 10);
  assert.equal((await asked.symbols.provideDocumentSymbols(document)).length, 6);
  assert.deepEqual(await asked.formatting.provideDocumentFormattingEdits(document, {}), []);
  document.version = 2;
  heard.change({ document, contentChanges: [{ range: new Range(23, 14, 23, 15), text: "" }] });
  await until(() => told.get(uri)?.length > 0);
  heard.close(document);
  await until(() => told.get(uri)?.length === 0);
  await extension.deactivate();
  console.log("the extension gets and asks what is wanted");
}

main().catch((error) => {
  console.error(error);
  process.exit(1);
});
