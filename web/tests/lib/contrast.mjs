// What of the page, open in a browser, has too little contrast with what is behind it, as an expression for the browser.

/** The texts of the page whose contrast with what is behind them is below 4.5; what is switched off does not count. */
export const CONTRAST = `(() => {
  const light = ([red, green, blue]) => [red, green, blue].map((value) => value / 255).map((part) => (part <= 0.03928 ? part / 12.92 : ((part + 0.055) / 1.055) ** 2.4)).reduce((sum, part, at) => sum + part * [0.2126, 0.7152, 0.0722][at], 0);
  const parts = (colour) => (colour.match(/[\\d.]+/g) || []).map(Number), ratio = (one, other) => (Math.max(one, other) + 0.05) / (Math.min(one, other) + 0.05);
  const behind = (element) => { for (let at = element; at; at = at.parentElement) { const found = parts(getComputedStyle(at).backgroundColor); if (found.length === 3 || found[3] === 1) return found; } return [255, 255, 255]; };
  const wrong = [];
  for (const element of document.querySelectorAll("body *:not(svg *)")) {
    const isText = [...element.childNodes].some((node) => node.nodeType === 3 && node.textContent.trim() !== "") || element.matches("input:not([type=range]), textarea, select");
    if (!isText || element.getClientRects().length === 0 || element.closest(":disabled, option, script, style, #program")) continue;
    const value = ratio(light(parts(getComputedStyle(element).color)), light(behind(element)));
    if (value < 4.5) wrong.push(value.toFixed(2) + " " + element.tagName + " " + (element.id || element.className) + " " + element.textContent.slice(0, 20));
  }
  const ground = light(parts(getComputedStyle(document.getElementById("canvas")).backgroundColor));
  for (const text of document.querySelectorAll("#canvas svg text:not([pointer-events]):not(.number)")) for (const part of text.children.length > 0 ? text.children : [text]) {
    if (part.tagName === "title") continue;
    const value = ratio(light(parts(getComputedStyle(part).fill)), ground);
    if (value < 4.5) wrong.push(value.toFixed(2) + " in the picture " + part.textContent);
  }
  return wrong;
})()`;
