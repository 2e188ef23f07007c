"""Programs and histories that several tests play."""

APPEND = "append([],Y,Z) :- true | Z = Y.\nappend([A|X],Y,Z) :- true | Z = [A|Z1], append(X,Y,Z1).\n"
SUM = "sum([],A,R) :- true | R = A.\nsum([X|S],A,R) :- true | B := A + X, sum(S,B,R).\n"
MANY = "p(A,B,C,D) :- A > 0, B > 0, C > 0, D > 0 | true.\n"

# The steps of `append([1],[2],R)`, in another order than that of their numbers.
HISTORY = "ghc-history 1\nsteps 4\n1 0.1 by 2\n3 1.2 by 1\n4 3.1 eq\n2 1.1 eq\nend 5\n"
