// Tests of web/naming.mjs: the names that program and query give to variables, for people and in a query.
import assert from "node:assert/strict";
import test from "node:test";
import * as Graph from "../../front/run/graph.mjs";
import Naming from "../naming.mjs";

const PROGRAM = "qs([],R,T) :- true | R = T.\nqs([P|L],R,T) :- true | part(L,P,S,B), qs(S,R,M), qs(B,M,T).\npart([],_,S,B) :- true | S = [], B = [].\n";

test("variables have the names of the query, and of a clause with the step below the line; each has another one in a query", () => {
  const graph = Graph.graphOf(["1 0.1 by 2 reads - binds - makes 1.1,1.2,1.3", "24 1.2 by 2 reads - binds - makes 24.1,24.2,24.3"]);
  const naming = new Naming({ program: PROGRAM, query: "qs([5,2],R,[])" }, graph);
  assert.equal(naming.shown("part([],1,_24_1,_24_2)"), "part([],1,S₂₄,B₂₄)");
  assert.equal(naming.shown("f(_0_1,_1_3,a_1_2,_7_1)"), "f(R,M₁,a_1_2,_7_1)");
  assert.equal(naming.asQuery("f(_0_1,_1_3,_24_3,_7_1,_8_1,_0_1)"), "f(R,M,M2,V,V2,R)");
  assert.equal(naming.asQuery("qs([],a,b)"), "qs([],a,b)");
});

test("a name that a call has already is taken by no other variable", () => {
  const graph = Graph.graphOf(["1 0.1 by 1 reads - binds - makes 1.1", "2 1.1 by 1 reads - binds - makes 2.1", "3 2.1 by 1 reads - binds - makes 3.1"]);
  const naming = new Naming({ program: "p(A) :- true | q(M,M2,_Rest).\nq(_,_,_) :- true | true.\n", query: "p(V)" }, graph);
  assert.equal(naming.asQuery("q(_1_1,_2_1,_1_2,_3_1)"), "q(M,M2,M22,M3)");
  assert.equal(naming.asQuery("q(_1_3,_0_1)"), "q(V,V2)");
});

test("of a text that is refused there are no names, and nothing fails", () => {
  for (const given of [{ program: PROGRAM, query: "qs(ä" }, { program: "p(X :- ä", query: "p(X)" }]) {
    const naming = new Naming(given, Graph.graphOf([]));
    assert.equal(naming.shown("f(_1_1)"), "f(_1_1)");
    assert.equal(naming.variableOf("M₁"), undefined);
  }
});

test("a text is taken apart into texts and names, and a name leads back to its variable", () => {
  const graph = Graph.graphOf(["1 0.1 by 2 reads - binds - makes 1.1,1.2,1.3"]);
  const naming = new Naming({ program: PROGRAM, query: "qs([5,2],R,[])" }, graph);
  assert.deepEqual(naming.partsOf("f(_0_1,_9_1) waits for _1_3"), ["f(", { variable: "_0_1", name: "R" }, ",_9_1) waits for ", { variable: "_1_3", name: "M₁" }]);
  assert.deepEqual(naming.partsOf("qs(a_1_2)"), ["qs(a_1_2)"]);
  const variables = { R: "_0_1", "M₁": "_1_3", "S₁": "_1_1", M: undefined, "R₁": undefined, "M₂": undefined, part: undefined };
  for (const [name, variable] of Object.entries(variables)) assert.equal(naming.variableOf(name), variable, name);
});
