// SPDX-License-Identifier: MIT OR Apache-2.0
// The package `bcp47` for pages, workers and every other host of WebAssembly, in one file, which bindings/wasm/build.sh makes: the files
// of the package for Node.js stand where they are named here.
// bindings/node/calls.js
function classesOf(native) {
  const absent = () => {
    throw new TypeError('there are no files here: open a registry by new Registry(bytes)');
  };
  const [readFileSync, require] = [absent, absent];
  // bindings/node/index.js
}

/** What the package for Node.js has, by bcp47.wasm: load.d.ts says more. */
export async function load(source = new URL('bcp47.wasm', import.meta.url)) {
  const found = await (source instanceof URL || typeof source === 'string' ? fetch(source) : source);
  const wasm = await WebAssembly.instantiate(typeof found.arrayBuffer === 'function' ? await found.arrayBuffer() : found);
  return classesOf(callsOf((wasm.instance ?? wasm).exports));
}
