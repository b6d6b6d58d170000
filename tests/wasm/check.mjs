// What `langtag check` prints for each registry. Arguments: the folder of the package, registries.
import { createRequire } from 'node:module';

const { RefusedRegistry, Registry } = createRequire(`${process.argv[2]}/`)('./index.js');
for (const path of process.argv.slice(3)) {
  try {
    const registry = Registry.fromFile(path);
    console.log(`ok ${registry.info.entries}`);
    registry.close();
  } catch (error) {
    if (!(error instanceof RefusedRegistry)) throw error;
    console.log(error.message);
  }
}
