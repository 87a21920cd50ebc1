// Encodes the value of a primitive element anew, and the elements around it, whose lengths follow. The contents octets
// of numbers, identifiers and restricted strings are made by the library. What is made is decoded again by the page.
import { KINDS, UNIVERSAL, tagOf } from './decode.mjs';
import { joined, octetsOf } from './text.mjs';

// Returns the text of a value as it is edited, or null for one that is not edited.
export function editable(library, octets, part) {
  if (part.isConstructed || part.code) return null;
  const tag = tagOf(part), held = octets.subarray(part.first, part.end);
  const characters = () => String.fromCharCode(...held);
  if (held.length > 4000) return null;
  switch (tag) {
    case 1:
      return held[0] ? 'TRUE' : 'FALSE';
    case 2:
    case 10:
      return held.length ? library.integer(octets, part) : null;
    case 3:
    case 5:
      return null;
    case 6:
      return library.identifier(octets, part).text ?? null;
    case 12:
      return new TextDecoder('utf-8', { ignoreBOM: true }).decode(held);
    case 23:
    case 24:
      return characters();
  }
  if (tag in KINDS) return library.string(KINDS[tag], octets, part).text ?? null;
  return Array.from(held, (it) => it.toString(16).padStart(2, '0')).join(' ');
}

// Returns the contents octets of an edited text.
function contentsOf(library, tag, text) {
  const octets = new TextEncoder().encode(text);
  const wanted = (made) => {
    if (!made) throw new Error(`this is no ${UNIVERSAL[tag]}`);
    return made;
  };
  switch (tag) {
    case 1:
      return wanted({ TRUE: Uint8Array.of(255), FALSE: Uint8Array.of(0) }[text.trim()]);
    case 2:
    case 10:
      return wanted(library.made('asn1v_integer_from_text', [], new TextEncoder().encode(text.trim())));
    case 6:
      return wanted(library.identifierOf(new TextEncoder().encode(text.trim())));
    case 12:
      return octets;
    case 23:
    case 24:
      return wanted(/^[\x20-\x7e]*$/.test(text) ? octets : null);
  }
  if (tag in KINDS) return wanted(library.made('asn1v_string_from_utf8', [[KINDS[tag]]], octets, 8, 16));
  return text.trim() ? octetsOf(text).octets : new Uint8Array();
}

// Returns a length in the minimal number of octets (X.690 8.1.3, 10.1).
function lengthOf(count) {
  if (count < 128) return [count];
  const digits = [];
  for (let left = count; left > 0; left = Math.floor(left / 256)) digits.unshift(left % 256);
  return [128 + digits.length, ...digits];
}

// Returns where the identifier octets of an element end.
export function tagEnd(octets, part) {
  let at = part.start;
  if ((octets[at++] & 31) === 31) while (at < part.first && octets[at++] & 128);
  return at;
}

// Returns the octets with another text for the part at an index of a tree, in which each part has its parent's index.
export function edited(library, octets, parts, index, text) {
  let part = parts[index], contents = contentsOf(library, tagOf(part), text);
  for (;;) {
    const element = joined(octets.subarray(part.start, tagEnd(octets, part)), lengthOf(contents.length), contents);
    const around = parts[part.parent];
    if (!around) return joined(octets.subarray(0, part.start), element, octets.subarray(part.end));
    contents = joined(octets.subarray(around.first, part.start), element, octets.subarray(part.end, around.end));
    part = around;
  }
}
