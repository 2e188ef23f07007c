// The word of a list that is nearest to another: for what was mistyped. Pure.
/** How many letters must be put in, left out, changed, or exchanged with their neighbour, to make one word the other. */
function distance(one, other) {
  let before = [], last = Array.from({ length: other.length + 1 }, (none, place) => place);
  for (let row = 1; row <= one.length; row += 1) {
    const line = [row];
    for (let column = 1; column <= other.length; column += 1) {
      const isSame = one[row - 1] === other[column - 1];
      line[column] = Math.min(last[column] + 1, line[column - 1] + 1, last[column - 1] + (isSame ? 0 : 1));
      const isExchanged = row > 1 && column > 1 && one[row - 1] === other[column - 2] && one[row - 2] === other[column - 1];
      if (isExchanged) line[column] = Math.min(line[column], before[column - 2] + 1);
    }
    [before, last] = [last, line];
  }
  return last[other.length];
}

const LONGEST = 40; // letters: a longer word is nobody's slip of a finger, and looking for it takes their square
const LEAST = 3, SOME = 4, LONG = 8; // letters: of a word that is near to another, near by one mistake, near by two

/** How many mistakes may lie between two words: one, in long words two, in the shortest none. */
function mostMistakes(one, other) {
  const length = Math.min(one.length, other.length) < LEAST ? 0 : Math.max(one.length, other.length);
  return length >= LONG ? 2 : length >= SOME ? 1 : 0;
}

/** The nearest word, where so few mistakes lie between that it may be meant; else undefined. */
function nearest(word, words) {
  let best, least = Infinity;
  for (const other of word.length > LONGEST ? [] : words.filter(({ length }) => length <= LONGEST)) {
    const far = distance(word.toLowerCase(), other.toLowerCase());
    if (far < least && far <= mostMistakes(word, other)) [best, least] = [other, far];
  }
  return best;
}

/** The predicates, as `append/3`, of a name, with any number of arguments; where none has it, those of the nearest. */
function predicatesNamed(name, predicates) {
  const nameOf = (predicate) => predicate.split("/")[0], names = predicates.map(nameOf);
  const meant = names.includes(name) ? name : nearest(name, names);
  return predicates.filter((predicate) => nameOf(predicate) === meant);
}

export { nearest, predicatesNamed };
