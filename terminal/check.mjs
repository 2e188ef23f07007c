// What terminal/check does; how it is called stands there.
import { playStandardInput, write } from "./scripted.mjs";

const tell = (lines) => write(lines.map((line) => `${line}\n`).join(""), "latin1");

playStandardInput({ begin() {}, hear: tell, end: tell, ended() {} });
