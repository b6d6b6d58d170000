// A program that a bundler makes, which has bcp47.wasm inside. Argument: a registry.
import { readFileSync } from 'node:fs';
import bytes from 'bcp47/bcp47.wasm';
import { load } from 'bcp47/load';

const { Registry } = await load(bytes);
console.log(new Registry(readFileSync(process.argv[2])).canonical('zh-yue'));
