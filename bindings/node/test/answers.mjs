// Answers each line of a file as `langtag canon` does. Arguments: registry, lines; and `explain`, to answer as that does.
import { readFileSync } from 'node:fs';
import { Registry } from '../index.mjs';

const [path, lines, explains] = process.argv.slice(2);
const tags = readFileSync(lines, 'utf8').split('\n').slice(0, -1);
const registry = Registry.fromFile(path);

function explained(tag) {
  try {
    const { steps, canonical } = registry.explain(tag);
    return [...steps.map(({ kind, place, number, tag: after }) => `${kind} ${place} ${number} ${after}`), `= ${canonical}`].join('\n');
  } catch (refused) {
    return `! ${refused.message}`;
  }
}

const answers = explains ? tags.map(explained) : registry.canonicalMany(tags);
process.stdout.write(answers.map((answer) => `${answer}\n`).join(''));
