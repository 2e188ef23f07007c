// What tests read of the page, as expressions for a browser, and what a user does with it.
export const PHONE = [390, 800], WIDE = [1440, 900];

export const text = (id) => `((area) => (area.hidden ? "" : area.textContent))(document.getElementById("${id}"))`;
export const lines = "[...document.querySelectorAll('#told > .typed')].map((one) => one.textContent.slice(2))";
export const field = (id) => `document.getElementById("${id}").value`;
export const numbers = (selector, name = "step") =>
  `[...document.querySelectorAll(${JSON.stringify(selector)})].map((one) => Number(one.dataset.${name}))`;

/** Types a text into a field, in the place of what stands there. */
export async function write(page, id, words) {
  await page.value(`(document.getElementById("${id}").focus(), document.getElementById("${id}").select(), true)`);
  await page.value(`(document.execCommand("insertText", false, ${JSON.stringify(words)}), true)`);
}

/** Writes a program and a query, and starts them. */
export async function startOwn(page, program, query) {
  await write(page, "program", program);
  await write(page, "query", query);
  await page.value('(document.getElementById("start").requestSubmit(), Talk.settled().then(() => true))');
}

/** Begins a session of a program and a query without the fields. */
export function begin(program, query) {
  return `(Page.begin(${JSON.stringify({ program, query })}), Talk.settled().then(() => true))`;
}

/** Waits until an expression is true. */
export const until = (page, is) =>
  page.value(`new Promise((done) => { const look = () => (${is} ? done(true) : setTimeout(look, 20)); look(); })`);

/** Chooses an example from the list. */
export async function chooseExample(page, name) {
  const list = 'document.getElementById("examples")', change = 'new Event("change", { bubbles: true })';
  await page.value(`(${list}.value = "${name}", ${list}.dispatchEvent(${change}), Talk.settled().then(() => true))`);
}
