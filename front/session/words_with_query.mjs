// The words of a command line that names no query: it is the one of the program's comment; else why they begin no
// session.
import { queryOf } from "../text/query_comment.mjs";
import { readWords } from "../protocol/words.mjs";
import { beginningOf, isFile, tried } from "./files.mjs";

const MOST_BYTES = 1_048_576; // of a program

/** The words, with the query of the program's comment where they ask for a session and name none. */
function withQuery(words) {
  const { asksOnly, file, query, schedule } = readWords(words);
  if (asksOnly || query !== undefined || schedule !== undefined || !isFile(file)) return words;
  const named = queryOf(String(tried(() => beginningOf(file, MOST_BYTES), "")));
  return named ? [...words, `--query=${named}`] : words;
}

/** Do the words name a file alone, or nothing at all? At a terminal that is a session that was not asked for in full. */
const namesFileAlone = (words) => words.length === 0 || (words.length === 1 && !words[0].startsWith("-"));

/** Why words begin no session, to which no comment gave a query. */
function whyNoSession(words) {
  const { file, query } = readWords(words);
  if (file === undefined || query !== undefined) {
    return "a program and a query are wanted, as bill.ghc --query 'bill(12,3,T)'; --help lists the options";
  }
  if (!isFile(file)) return `there is no file ${file}`;
  return `${file} has no comment \`% Query: GOALS\`: --query GOALS is wanted`;
}

export { namesFileAlone, whyNoSession, withQuery };
