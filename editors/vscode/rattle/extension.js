// Jumps to definitions, with the index that tools/tags writes at the top of the repository.
"use strict";

const fs = require("fs");
const path = require("path");

// The index in a folder or in a folder above it, which is the top of the repository.
function findIndex(folder) {
  const file = path.join(folder, "tags");
  if (fs.existsSync(file)) {
    return file;
  }
  const above = path.dirname(folder);
  return above === folder ? null : findIndex(above);
}

// The definitions in an index: for each name its files and lines, counted from 0, in the order of the index.
function readIndex(file) {
  const found = new Map();
  for (const line of fs.readFileSync(file, "utf8").split("\n")) {
    const cells = line.split("\t");
    const at = cells.find((cell) => cell.startsWith("line:"));
    if (at === undefined) {
      continue;
    }
    const entry = { file: path.join(path.dirname(file), cells[1]), line: Number(at.slice(5)) - 1 };
    found.set(cells[0], [...(found.get(cells[0]) || []), entry]);
  }
  return found;
}

// The index that was read last, with the time at which it was written. It is read again if it has been rewritten.
let known = { file: null, written: 0, definitions: new Map() };

function definitionsOf(name, folder) {
  const file = findIndex(folder);
  if (file === null) {
    return [];
  }
  const written = fs.statSync(file).mtimeMs;
  if (known.file !== file || known.written !== written) {
    known = { file, written, definitions: readIndex(file) };
  }
  return known.definitions.get(name) || [];
}

function activate(context) {
  const vscode = require("vscode");
  const provider = {
    provideDefinition(document, position) {
      const range = document.getWordRangeAtPosition(position);
      const found = range ? definitionsOf(document.getText(range), path.dirname(document.fileName)) : [];
      return found.map((entry) => new vscode.Location(vscode.Uri.file(entry.file), new vscode.Position(entry.line, 0)));
    },
  };
  for (const language of ["rattle", "antt"]) {
    context.subscriptions.push(vscode.languages.registerDefinitionProvider({ language }, provider));
  }
}

module.exports = { activate, definitionsOf };
