// Tries the page in each headless browser that is there. One that is not there is not tried, and that is said.
import fs from "node:fs";
import os from "node:os";
import path from "node:path";
import { pathToFileURL, fileURLToPath } from "node:url";
import test from "node:test";
import assert from "node:assert/strict";
import { ChromiumPage, chromiumName } from "./chromium.mjs";
import { FirefoxPage, firefoxName } from "./firefox.mjs";

const LONGEST_TEST = 600000; // milliseconds

export const FILE = path.join(path.dirname(fileURLToPath(import.meta.url)), "..", "..", "ghcdb.html");
export const PAGE = pathToFileURL(FILE).href;
export const STARTED = 'document.body.classList.contains("started") && !State.busy';

const BROWSERS = [{ name: "Chromium", Page: ChromiumPage, isThere: chromiumName() }, { name: "Firefox", Page: FirefoxPage, isThere: firefoxName() }];

/** Opens an address of the page, or of another file. */
export async function open(page, address, size, file = PAGE) {
  if (size) await page.size(...size);
  await page.go(`${file}${address}`, STARTED);
}

/** A copy of the page, changed by a function of its text. */
export function pageWith(change) {
  const folder = fs.mkdtempSync(path.join(os.tmpdir(), "ghcdb-page-")), file = path.join(folder, "page.html");
  fs.writeFileSync(file, change(fs.readFileSync(FILE, "utf8")));
  return { file: pathToFileURL(file).href, remove: () => fs.rmSync(folder, { recursive: true }) };
}

/** Tries the page in each browser that is there. Where a test takes too long, its browser is killed, and what it waits for fails. */
export function inBrowsers(words, does) {
  for (const { name, Page, isThere } of BROWSERS) {
    test(`${name}: ${words}`, { timeout: LONGEST_TEST, skip: isThere ? false : `there is no ${name}: the page was not tried in it` }, async ({ signal }) => {
      const page = await Page.open();
      signal.addEventListener("abort", () => page.kill());
      try {
        await does(page);
        assert.deepEqual(await page.thrown(), []);
      } finally {
        await page.close();
      }
    });
  }
}
