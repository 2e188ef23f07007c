// Goes from one step to the next of some that are lit, and keeps the light: two buttons, the step, and what is said of
// it.
import Deeds from "./deeds.mjs";
import { make, link } from "./elements.mjs";
import * as Names from "./names.mjs";

/** A row that goes along `count` steps; `numberAt` gives the number of each, and `tell` what stands behind it. */
function along(count, numberAt, tell = (number) => []) {
  const place = make("span", { class: "dim" }), words = make("span", { role: "status" });
  let at = 0;
  const show = () => {
    place.textContent = count > 1 ? ` ${(at + 1).toLocaleString("en")} of ${count.toLocaleString("en")}: ` : "";
    const number = numberAt(at), how = { "data-visit": number, title: `goes to step ${number}` };
    words.replaceChildren(link(how, `step ${number}`), ...tell(number));
    Names.dress(words);
  };
  const go = (by) => () => {
    at = (at + by + count) % count;
    show();
    Deeds.visit(numberAt(at));
  };
  const button = (sign, label, by) => {
    const made = make("button", { class: "small walk", type: "button", "aria-label": label, title: label }, sign);
    made.addEventListener("click", go(by));
    return made;
  };
  show();
  const ways = count > 1 ? [button("◀", "Previous step", -1), button("▶", "Next step", 1)] : [];
  return make("span", { class: "walking" }, ...ways, place, words);
}

export { along };
