// SPDX-License-Identifier: MIT OR Apache-2.0
// The package for browsers: bcp47.wasm is fetched from beside this file before the import is done.
import { load } from './load.mjs';

const bcp47 = await load();
export const { Available, Refusal, Refused, RefusedRegistry, RefusedTag, Registry, Tag, version } = bcp47;
export default bcp47;
