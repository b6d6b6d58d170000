// SPDX-License-Identifier: MIT OR Apache-2.0
// The calls: by the addon where it is and loads, and elsewhere by WebAssembly.
'use strict';

function byWebAssembly() {
  const { readFileSync } = require('node:fs');
  const { callsOf } = require('./calls.js');
  const module = new WebAssembly.Module(readFileSync(`${__dirname}/bcp47.wasm`));
  return callsOf(new WebAssembly.Instance(module).exports);
}

try {
  module.exports = require('./bcp47.node');
} catch (noAddon) {
  try {
    module.exports = byWebAssembly();
  } catch (error) {
    throw Object.assign(noAddon, { cause: error });
  }
}
