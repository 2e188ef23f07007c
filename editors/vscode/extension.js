// The extension for VS Code: it starts the debug adapter and the language server by the editor's own Node, so that nothing else has to
// be installed.
"use strict";

const fs = require("node:fs");
const path = require("node:path");
const vscode = require("vscode");
const { pathToFileURL } = require("node:url");
const language = require("./language.js");

// Where adapter and server stand: in the packed extension, or in the repository beside this folder.
const FOLDERS = [path.join(__dirname, "inside", "editors"), path.join(__dirname, "..")];

const placeOf = (name) => FOLDERS.map((folder) => path.join(folder, name)).find((place) => fs.existsSync(place));

/** How one of the two is started. */
const startOf = (name, given = {}) => ({ program: process.execPath, words: [placeOf(name)], env: { ...process.env, ELECTRON_RUN_AS_NODE: "1", ...given } });

/** How the adapter is started for a configuration. */
function adapterFor({ configuration: { native } }) {
  const { program, words, env } = startOf("ghcdb-adapter", native && { GHCDB: native });
  return new vscode.DebugAdapterExecutable(program, words, { env });
}

/** Starts the language server; without it the adapter debugs as ever. */
async function startLanguage(subscriptions) {
  try {
    const wire = await import(pathToFileURL(placeOf("dap/wire.mjs")).href);
    await language.begin(wire, startOf("ghcdb-lsp"), subscriptions);
  } catch (error) {
    vscode.window.showErrorMessage(`Flat GHC: ${error.message}`);
  }
}

/** A configuration for the file that is edited, where none was written. */
function completed(folder, configuration) {
  if (configuration.type) return configuration;
  const file = vscode.window.activeTextEditor?.document;
  return file?.languageId === "fghc" ? { type: "ghcdb", request: "launch", name: "Flat GHC", program: file.fileName } : undefined;
}

/** Asks for a step's number, and hands the request on to the session. */
async function ask(what) {
  const session = vscode.debug.activeDebugSession;
  const validateInput = (text) => (/^\d+$/.test(text) ? undefined : "a step's number, as `records` lists them");
  const number = session && await vscode.window.showInputBox({ prompt: `${what} step number`, validateInput });
  if (number === undefined) return;
  try {
    await session.customRequest(`ghcdb/${what}`, { step: Number(number) });
  } catch (error) {
    vscode.window.showErrorMessage(error.message);
  }
}

function activate(context) {
  context.subscriptions.push(
    vscode.debug.registerDebugAdapterDescriptorFactory("ghcdb", { createDebugAdapterDescriptor: adapterFor }),
    vscode.debug.registerDebugConfigurationProvider("ghcdb", { resolveDebugConfiguration: completed }),
    ...["undo", "roll", "redo"].map((what) => vscode.commands.registerCommand(`ghcdb.${what}`, () => ask(what))),
  );
  return startLanguage(context.subscriptions);
}

module.exports = { activate, deactivate() {} };
