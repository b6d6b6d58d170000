// A worker over load.mjs, as a page has it beside itself.
import { load } from './load.mjs';

const { Registry, Tag } = await load();
const registry = new Registry(new Uint8Array(await (await fetch('registry.txt')).arrayBuffer()));
postMessage([registry.canonical('I-KLINGON'), new Tag('zh-hant').script]);
