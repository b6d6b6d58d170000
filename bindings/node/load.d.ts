/**
 * The package `bcp47` by WebAssembly: its classes, as `import 'bcp47'` has them, of an instance with a memory of its own. The source is
 * bcp47.wasm: its bytes or its module, a response that has it, or where it is; beside this file, if none is given. Bytes are for
 * hosts that fetch no files, for example Node.js.
 */
export function load(
  source?: URL | string | Response | Promise<Response> | BufferSource | WebAssembly.Module,
): Promise<Omit<typeof import('./index'), 'default'>>;
