// What editors/ghcdb-lsp does; how it is called stands there.
import { Wire } from "../dap/wire.mjs";
import { nativeProgram } from "../../front/session/program.mjs";
import { Server } from "./server.mjs";

const server = new Server({
  native: nativeProgram(),
  send: (message) => wire.send(message),
  leave: (status) => wire.leave(status),
});
const wire = new Wire(process.stdin, process.stdout, { hear: (message) => server.hear(message), gone: 1 });
