// Words in parts: texts, and between them steps (`{ step }`) and goals (`{ goal }`) that one can go to, and variables
// (`{ variable, label }`). The page makes links and names of these; a terminal joins all. Pure.

/** Parts as one text. */
const inWords = (parts) => parts.map((part) => (typeof part === "string" ? part : part.label ?? part.step ?? part.goal)).join("");

export { inWords };
