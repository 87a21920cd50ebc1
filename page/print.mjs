// Prints what the page reads, for scripts/check-page: a line of JSON for each line of hexadecimal digits. After the
// digits a line may have `|`, the index of a part and its new text: then the line of JSON is the octets that it becomes.
// usage: node --experimental-wasm-memory64 print.mjs MODULE < LINES
import { readFileSync } from 'node:fs';
import { Library, elements, nameOf, reading, treeOf } from './decode.mjs';
import { editable, edited } from './encode.mjs';
import { FORMS, octetsOf } from './text.mjs';
import { IDENTIFIERS } from './identifiers.mjs';

const hexOf = FORMS.hexadecimal;
const library = await Library.load(readFileSync(process.argv[2]));
for (const line of readFileSync(0, 'utf8').split('\n').filter(Boolean)) {
  const [digits, index, text] = line.split('|'), { octets } = octetsOf(digits);
  for (const [name, form] of Object.entries(FORMS))
    if (name !== 'C array' && octets.length && hexOf(octetsOf(form(octets)).octets) !== hexOf(octets)) throw new Error(name);
  const twice = octetsOf(FORMS.PEM(octets) + FORMS.PEM(octets)).octets;
  if (hexOf(twice) !== hexOf(octets) + hexOf(octets)) throw new Error('two blocks of PEM');
  const steps = reading(library, octets, IDENTIFIERS);
  let step = steps.next();
  while (!step.done) step = steps.next();
  const parts = treeOf(step.value);
  parts.forEach((part, i) => {
    const text = part.fault ? null : editable(library, octets, part);
    if (text === null) return;
    if (hexOf(edited(library, octets, parts, i, text)) !== hexOf(octets)) throw new Error(`${line}: ${text} is edited`);
  });
  if (index) {
    console.log(JSON.stringify(hexOf(edited(library, octets, parts, Number(index), text))));
    continue;
  }
  const rows = parts.map((it) => ({
    level: it.level,
    start: it.start,
    first: it.first,
    end: it.end,
    isConstructed: it.isConstructed ?? false,
    name: nameOf(it),
    value: it.fault ? `✗ ${it.fault}` : it.text ?? '',
    isGuessed: it.isGuessed ?? false,
  }));
  if ([...elements(library, octets)].length !== rows.filter((it) => !it.isGuessed).length) throw new Error('elements');
  console.log(JSON.stringify(rows));
}
