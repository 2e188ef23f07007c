// Packs the extension: its own files, and inside it the adapter, the language server and all that these need, in the
// places that they have here.
import fs from "node:fs";
import path from "node:path";
import { fileURLToPath } from "node:url";
import { zip } from "./archive.mjs";

const HERE = path.dirname(fileURLToPath(import.meta.url));

const ROOT = path.join(HERE, "..", "..");
const OWN = ["package.json", "extension.js", "language.js", "language-configuration.json", "syntaxes/fghc.tmLanguage.json"];
const FOLDERS = ["editors/dap", "editors/lsp", "front/protocol", "front/text", "front/run", "front/session"]; // of these all that ends in .mjs
const SINGLE = ["editors/ghcdb-adapter", "editors/ghcdb-lsp", "web/ghcdb.html"];

const scriptsIn = (folder) => fs.readdirSync(path.join(ROOT, folder)).filter((name) => name.endsWith(".mjs")).map((name) => `${folder}/${name}`);

/** The extension's files by their names, each as bytes. */
function packedFiles() {
  const own = OWN.map((name) => [name, `editors/vscode/${name}`]);
  const inside = [...FOLDERS.flatMap(scriptsIn), ...SINGLE].map((name) => [`inside/${name}`, name]);
  return new Map([...own, ...inside].map(([place, name]) => [place, fs.readFileSync(path.join(ROOT, name))]));
}

const TYPES = `<?xml version="1.0" encoding="utf-8"?>
<Types xmlns="http://schemas.openxmlformats.org/package/2006/content-types">
<Default Extension="json" ContentType="application/json"/><Default Extension="js" ContentType="application/javascript"/>
<Default Extension="mjs" ContentType="application/javascript"/><Default Extension="html" ContentType="text/html"/><Default Extension="vsixmanifest" ContentType="text/xml"/>
<Override PartName="/extension/inside/editors/ghcdb-adapter" ContentType="application/javascript"/>
<Override PartName="/extension/inside/editors/ghcdb-lsp" ContentType="application/javascript"/>
</Types>
`;

function manifest({ name, publisher, version, displayName, description, engines }) {
  return `<?xml version="1.0" encoding="utf-8"?>
<PackageManifest Version="2.0.0" xmlns="http://schemas.microsoft.com/developer/vsx-schema/2011">
<Metadata><Identity Language="en-US" Id="${name}" Version="${version}" Publisher="${publisher}"/>
<DisplayName>${displayName}</DisplayName><Description xml:space="preserve">${description}</Description>
<Properties><Property Id="Microsoft.VisualStudio.Code.Engine" Value="${engines.vscode}"/></Properties></Metadata>
<Installation><InstallationTarget Id="Microsoft.VisualStudio.Code"/></Installation><Dependencies/>
<Assets><Asset Type="Microsoft.VisualStudio.Code.Manifest" Path="extension/package.json" Addressable="true"/></Assets>
</PackageManifest>
`;
}

/** The files of the archive that VS Code installs. */
function vsixFiles(files) {
  const about = Buffer.from(manifest(JSON.parse(files.get("package.json"))));
  const packed = new Map([["[Content_Types].xml", Buffer.from(TYPES)], ["extension.vsixmanifest", about]]);
  files.forEach((bytes, name) => packed.set(`extension/${name}`, bytes));
  return packed;
}

/** Writes the extension into a file, and tells the name. */
function pack(file = path.join(HERE, "ghcdb.vsix")) {
  fs.writeFileSync(file, zip(vsixFiles(packedFiles())));
  process.stdout.write(`${file}\n`);
}

export { pack, packedFiles, vsixFiles };
