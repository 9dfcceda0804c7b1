// Tries the programs of an archive in a page that has it; what it finds is then the whole page.
import { bytes_of_base64 } from '../src/program.js';
import { tried } from './cases.js';

document.body.innerText = tried(bytes_of_base64(document.getElementById('archive').textContent));
