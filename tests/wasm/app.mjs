// A page that a bundler makes, with a worker of its own: it asks its server for what both answer.
import { Registry, RefusedTag } from 'bcp47';

const registry = new Registry(new Uint8Array(await (await fetch('registry.txt')).arrayBuffer()));
const said = (call) => {
  try {
    return call();
  } catch (error) {
    return error instanceof RefusedTag ? error.message : String(error);
  }
};
const worker = new Worker('worker.mjs', { type: 'module' });
worker.onmessage = ({ data }) => {
  fetch(encodeURI(`answer?${[said(() => registry.canonical('zh-yue')), said(() => registry.canonical('en_US')), ...data]}`));
};
