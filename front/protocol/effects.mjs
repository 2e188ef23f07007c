// What a line of the console does to the record, by its first word. Pure.
import CommandsTable from "./commands_table.mjs";

const byName = new Map(CommandsTable.map(({ name, effect }) => [name, effect]));

const wordOf = (line) => line.trim().split(/ +/)[0];

/** `adds`, `takes`, `orders`, `looks` or `ends`, as commands.table tells; undefined for a line that is no command. */
const effectOf = (line) => byName.get(wordOf(line));

export { effectOf, wordOf };
