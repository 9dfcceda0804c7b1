// Tries the programs of an archive by node: node web/tests/cases_node.js ARCHIVE
import { readFileSync } from 'node:fs';
import { tried } from './cases.js';

process.stdout.write(tried(new Uint8Array(readFileSync(process.argv[2]))));
