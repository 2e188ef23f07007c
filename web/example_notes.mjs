// What the comment of an example says: its query, and what to look at; and a larger query for a picture. Pure.
import { queryOf } from "../front/text/query_comment.mjs";

const LARGER = {
  append: "append([1,2,3,4],[5,6],R)", bill: "bill(12,30,T)", buffer: "produce(1,6,[A,B|E]), consume([A,B|E],E,Out)",
  counter: "instream(S), counter(S,0)", deadlock: "after(A,B), after(B,C), after(C,A), A = done",
  merge: "instream(X), instream(Y), merge(X,Y,Z)", primes: "primes(30,Ps)", quicksort: "quicksort([5,2,8,1,9,3],R)",
  reverse: "reverse([1,2,3,4],R)", sum: "instream(S), sum(S,0,R)",
  tree: "empty([insert(5),insert(2),insert(8),has(3,A),has(8,B),has(2,C)])",
};

/** What to look at: the words after that mark, and those in the lines that go on from it. */
function lookAtIn(program) {
  const [, words = ""] = /^% *Look at:(.*(?:\n% {4,}.*)*)/m.exec(program) ?? [];
  return words.split("\n%").map((line) => line.trim()).join(" ");
}

/** The query, what to look at, and a larger query. */
const read = ({ name, program }) =>
  ({ query: queryOf(program) ?? "", lookAt: lookAtIn(program), larger: LARGER[name] ?? "" });

export { read };
