// The regular expressions that stand in files of JavaScript, found by a small reader of its words: strings, templates and
// comments are passed over, and a slash begins an expression where no value ends before it.
const NO_VALUE = /^(?:return|typeof|case|in|of|delete|void|throw|new|else|do|yield|await)$/;

class Found {
  constructor(text) {
    this.text = text;
    this.at = 0;
    this.endsValue = false; // does a value end before this place?
    this.braces = []; // those that are open: is it one within a template?
    this.found = [];
  }

  /** Passes what a word that is no part of an expression matches at this place. */
  passes(word, endsValue = this.endsValue) {
    word.lastIndex = this.at;
    const [passed] = word.exec(this.text) ?? [];
    if (passed === undefined) return false;
    this.at += passed.length;
    this.endsValue = typeof endsValue === "function" ? endsValue(passed) : endsValue;
    return true;
  }

  /** Passes a template up to its end, or to a brace in it. */
  passTemplate() {
    while (this.at < this.text.length) {
      const letter = this.text[this.at];
      this.at += letter === "\\" || this.text.startsWith("${", this.at) ? 2 : 1;
      this.endsValue = letter === "`";
      if (letter === "`") return;
      if (letter === "$" && this.text[this.at - 1] === "{") return void this.braces.push(true);
    }
  }

  passBrace() {
    const letter = this.text[this.at];
    this.at += 1;
    this.endsValue = false;
    if (letter === "{") this.braces.push(false);
    else if (this.braces.pop()) this.passTemplate();
  }

  takeExpression() {
    const word = /\/((?:[^\n/\\[]|\\.|\[(?:[^\]\n\\]|\\.)*\])+)\/([a-z]*)/y;
    word.lastIndex = this.at;
    const [all, source, flags] = word.exec(this.text);
    this.found.push({ source, flags, line: this.text.slice(0, this.at).split("\n").length });
    this.at += all.length;
    this.endsValue = true;
  }

  read() {
    while (this.at < this.text.length) {
      if (this.passes(/\s+|\/\/.*|#!.*|\/\*[^]*?\*\//y)) continue;
      if (this.passes(/"(?:[^"\\\n]|\\.)*"|'(?:[^'\\\n]|\\.)*'/y, true)) continue;
      if (this.passes(/[\w$]+/y, (word) => !NO_VALUE.test(word))) continue;
      const letter = this.text[this.at];
      if (letter === "`") {
        this.at += 1;
        this.passTemplate();
      } else if (letter === "{" || letter === "}") this.passBrace();
      else if (letter === "/" && !this.endsValue) this.takeExpression();
      else this.passes(/[^]/y, (one) => one === ")" || one === "]");
    }
    return this.found;
  }
}

export const regexesIn = (text) => new Found(text).read();
