// The query that a program's comment names, in a line `% Query: GOALS`. Pure.
// Each blank is met once, however many there are.
const COMMENT = /^%[ \t]*Query:[ \t]*([^\s]*(?:[^\S\n\r\u2028\u2029]+[^\s]+)*)/m;

/** The query; undefined where no comment names one. */
const queryOf = (program) => COMMENT.exec(program)?.[1];

export { COMMENT, queryOf };
