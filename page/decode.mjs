// Reads DER by the proved library for C, compiled to WebAssembly. The library decides what an element is, and reads
// BOOLEAN, INTEGER, ENUMERATED, BIT STRING, OBJECT IDENTIFIER, restricted strings and times. This file checks NULL,
// UTF8String and the fraction of a time. Other contents are shown in hexadecimal and not checked, and neither is
// whether a universal type is primitive or constructed. This file is tested by scripts/check-page, and not proved.

// The codes of bindings/c/asn1_codes.h that a call used here returns. scripts/check-page compares them.
export const CODES = {
  DONE: 0, OUTSIDE: 1, MALFORMED: 6, ARC_TOO_LARGE: 7, ODD: 11, CHARACTER: 12, SHORT: 15, TOO_MANY: 23, NO_UNICODE: 25,
  SURROGATE: 26, NOT_MINIMAL: 28, INDEFINITE: 29, RESERVED: 30, TAG_LARGE: 31, CONTENTS: 32,
};

const FAULTS = {
  [CODES.SHORT]: 'octets are missing',
  [CODES.NOT_MINIMAL]: 'the number of the tag or the length has more octets than it needs',
  [CODES.INDEFINITE]: 'the length is indefinite, which DER forbids',
  [CODES.RESERVED]: 'the first octet of the length is reserved',
  [CODES.TAG_LARGE]: 'the number of the tag does not fit 64 bits',
};

// The universal tags (X.680 8.6). A string of the library has its kind in asn1_codes.h.
export const UNIVERSAL = {
  1: 'BOOLEAN', 2: 'INTEGER', 3: 'BIT STRING', 4: 'OCTET STRING', 5: 'NULL', 6: 'OBJECT IDENTIFIER', 7: 'ObjectDescriptor',
  8: 'EXTERNAL', 9: 'REAL', 10: 'ENUMERATED', 11: 'EMBEDDED PDV', 12: 'UTF8String', 13: 'RELATIVE-OID', 16: 'SEQUENCE',
  17: 'SET', 18: 'NumericString', 19: 'PrintableString', 20: 'TeletexString', 21: 'VideotexString', 22: 'IA5String',
  23: 'UTCTime', 24: 'GeneralizedTime', 25: 'GraphicString', 26: 'VisibleString', 27: 'GeneralString',
  28: 'UniversalString', 29: 'CHARACTER STRING', 30: 'BMPString',
};
export const KINDS = { 30: 0, 27: 1, 25: 2, 22: 3, 18: 4, 19: 5, 20: 6, 26: 7 };

// An INTEGER of more octets is printed in hexadecimal: its decimal text takes time quadratic in its length.
const MOST_DECIMAL = 512;
// A BIT STRING of more bits is printed in hexadecimal, a shorter one as its bits (X.680 22.10).
const MOST_BITS = 32;
// The most characters of a string that are printed.
const MOST_TEXT = 400;
// How many elements are read before others may run.
const SOME = 4000;

// Returns octets in hexadecimal, at most so many of them.
export function hex(octets, most = 24) {
  const front = Array.from(octets.subarray(0, most), (it) => it.toString(16).padStart(2, '0')).join(' ');
  return octets.length > most ? `${front} …` : front;
}

// The library, in a memory whose pages after its own are this script's.
export class Library {
  static async load(bytes) {
    const made = new Library();
    made.module = await WebAssembly.compile(bytes);
    made.start();
    return made;
  }

  // Makes a new instance: after a trap no call returns.
  start() {
    this.calls = new WebAssembly.Instance(this.module, {}).exports;
    this.own = this.calls.memory.buffer.byteLength;
    this.held = null;
  }

  // Grows the memory to `size` octets after the library's own. The index of a page is a BigInt or a number, by engine.
  grow(size) {
    const { memory } = this.calls;
    const pages = Math.ceil((this.own + size - memory.buffer.byteLength) / 65536);
    if (pages <= 0) return;
    try {
      memory.grow(BigInt(pages));
    } catch (error) {
      if (!(error instanceof TypeError)) throw error;
      memory.grow(pages);
    }
  }

  // Copies octets to the memory, unless they are there. Returns the index of the first of them, that of 64 octets for
  // what a call returns, and that of `size` octets more.
  hold(octets, size = 0) {
    const at = this.own + 64, room = at + 16 * Math.ceil((octets.length + 1) / 16);
    this.grow(room + size - this.own);
    if (this.held !== octets) new Uint8Array(this.calls.memory.buffer).set(octets, at);
    this.held = octets;
    return { at, answer: this.own, room };
  }

  // Calls a function of the library, and returns its result. A value of 32 bits is alone in a list.
  call(name, ...values) {
    try {
      return Number(this.calls[name](...values.map((it) => (Array.isArray(it) ? it[0] : BigInt(it)))));
    } catch (error) {
      this.start();
      throw error;
    }
  }

  // Returns the number of 64 bits at an index.
  word(at) {
    return Number(new DataView(this.calls.memory.buffer).getBigUint64(at, true));
  }

  text(at, count) {
    return new TextDecoder().decode(new Uint8Array(this.calls.memory.buffer, at, count));
  }

  // Returns the element that begins at an index (X.690 8.1), of octets that end at another, or the code of the fault.
  element(octets, start, end) {
    const { at, answer } = this.hold(octets), code = this.call('asn1v_der_next', at, end, start, answer);
    if (code) return { code };
    const view = new DataView(this.calls.memory.buffer, answer), word = (i) => Number(view.getBigUint64(i, true));
    return {
      code: 0,
      class: view.getUint32(0, true),
      isConstructed: view.getUint8(4) !== 0,
      number: view.getBigUint64(8, true),
      start,
      first: word(16),
      end: word(32),
    };
  }

  // Returns the code of a call with the contents octets of a part, and the number that it writes.
  number(name, octets, { first, end }) {
    const { at, answer } = this.hold(octets);
    return { code: this.call(name, at + first, end - first, answer), number: this.word(answer) };
  }

  // Returns whether an INTEGER's contents octets are as few as its value permits (X.690 8.3.2).
  isShortest(octets, { first, end }) {
    const { at } = this.hold(octets);
    return this.call('asn1v_integer_is_shortest', at + first, end - first) !== 0;
  }

  // Returns the decimal text of an INTEGER's contents octets (X.690 8.3).
  integer(octets, { first, end }) {
    const size = 3 * (end - first) + 2, { at, answer, room } = this.hold(octets, size);
    if (this.call('asn1v_integer_text', at + first, end - first, room, size, answer)) return null;
    return this.text(room, this.word(answer));
  }

  // Returns the dotted text of an OBJECT IDENTIFIER's contents octets (X.690 8.19), or the code of the fault.
  identifier(octets, { first, end }) {
    const most = end - first + 1, width = 16 * Math.ceil(most / 4), size = width + 11 * most;
    const { at, answer, room } = this.hold(octets, size);
    const code = this.call('asn1v_oid_arcs', at + first, end - first, room, most, answer);
    if (code) return { code };
    const count = this.word(answer);
    if (this.call('asn1v_oid_text', room, count, room + width, 11 * most, answer)) return { code: CODES.ARC_TOO_LARGE };
    return { code: 0, text: this.text(room + width, this.word(answer)) };
  }

  // Returns the characters of a restricted string of a kind (X.690 8.23), or the code of the fault and its index.
  string(kind, octets, { first, end }) {
    const size = 3 * (end - first), { at, answer, room } = this.hold(octets, size), place = answer + 8;
    const code = this.call('asn1v_string_to_utf8', [kind], at + first, end - first, room, size, answer, place, answer + 16);
    return code ? { code, place: this.word(place) } : { code: 0, text: this.text(room, this.word(answer)) };
  }

  // Returns what a call makes of a text in UTF-8, or null: it writes at most two octets for each of the text and the
  // count, and after that what `more` lists the offsets of.
  made(name, before, text, ...more) {
    const size = 2 * text.length + 8, { at, answer, room } = this.hold(text, size);
    const others = more.map((it) => answer + it);
    if (this.call(name, ...before, at, text.length, room, size, answer, ...others)) return null;
    return new Uint8Array(this.calls.memory.buffer, room, this.word(answer)).slice();
  }

  // Returns the contents octets of an OBJECT IDENTIFIER's dotted text, or null.
  identifierOf(text) {
    const most = text.length + 1, width = 16 * Math.ceil(most / 4), { at, answer, room } = this.hold(text, width + 5 * most);
    if (this.call('asn1v_oid_from_text', at, text.length, room, most, answer)) return null;
    if (this.call('asn1v_oid_contents', room, this.word(answer), room + width, 5 * most, answer)) return null;
    return new Uint8Array(this.calls.memory.buffer, room + width, this.word(answer)).slice();
  }

  // Returns a time as `2026-12-01 08:30:00 UTC`, or null (X.690 11.7, 11.8).
  time(name, octets, { first, end }) {
    const { at, answer } = this.hold(octets);
    if (this.call(name, at + first, end - first, answer)) return null;
    const view = new DataView(this.calls.memory.buffer), two = (i) => String(view.getUint8(answer + i)).padStart(2, '0');
    const year = String(view.getUint16(answer, true)).padStart(4, '0');
    return `${year}-${two(2)}-${two(3)} ${two(4)}:${two(5)}:${two(6)} UTC`;
  }
}

// Yields the elements of octets from one index to another, in the order in which they begin, each with its level.
// Where octets are no element, a part with the code of the fault takes the rest of the octets around them, and what
// follows these is read on. `base` is the level of the first element.
export function* elements(library, octets, from = 0, to = octets.length, base = 0) {
  const around = [];
  let next = from, end = to;
  for (;;) {
    while (next >= end && around.length) end = around.pop();
    if (next >= end) return;
    const level = base + around.length, part = library.element(octets, next, end);
    if (part.code) {
      yield { level, code: part.code, start: next, first: next, end };
      next = end;
      continue;
    }
    yield { level, ...part };
    if (part.isConstructed) around.push(end);
    next = part.isConstructed ? part.first : part.end;
    if (part.isConstructed) end = part.end;
  }
}

// Returns the number of the universal tag of a part, and 0 for other tags.
export function tagOf(part) {
  return part.class === 0 && !part.code ? Number(part.number) : 0;
}

// Returns the name of a part's tag.
export function nameOf(part) {
  if (part.code) return '';
  if (part.class === 0) return UNIVERSAL[part.number] ?? `[UNIVERSAL ${part.number}]`;
  return `[${['', 'APPLICATION ', '', 'PRIVATE '][part.class]}${part.number}]`;
}

// Returns the text of the fault of a part that is no element.
export function faultOf(part) {
  return FAULTS[part.code] ?? `code ${part.code}`;
}

const quoted = (text) => JSON.stringify(text.length > MOST_TEXT ? `${text.slice(0, MOST_TEXT)}…` : text);

// Returns the value of a primitive element in words, or what is invalid in its contents octets.
export function valueOf(library, octets, part, names = {}) {
  const held = octets.subarray(part.first, part.end), tag = tagOf(part);
  const valid = (text) => (text === null ? { fault: `these octets are no ${UNIVERSAL[tag]}` } : { text });
  switch (tag) {
    case 1: {
      const { code, number } = library.number('asn1v_der_boolean', octets, part);
      return valid(code ? null : number % 256 ? 'TRUE' : 'FALSE');
    }
    case 2:
    case 10:
      if (!held.length) return valid(null);
      if (!library.isShortest(octets, part)) return { fault: 'the number has more octets than it needs' };
      return held.length > MOST_DECIMAL ? { text: `${8 * held.length} bits: ${hex(held)}` } : valid(library.integer(octets, part));
    case 3: {
      const { code, number } = library.number('asn1v_der_bit_string', octets, part);
      if (code || number > MOST_BITS) return valid(code ? null : `${number} bits: ${hex(held.subarray(1))}`);
      const bits = Array.from(held.subarray(1), (it) => it.toString(2).padStart(8, '0')).join('');
      return { text: `'${bits.slice(0, number)}'B` };
    }
    case 5:
      return valid(held.length ? null : '');
    case 6: {
      const { code, text } = library.identifier(octets, part);
      if (code === CODES.ARC_TOO_LARGE) return { text: hex(held) };
      return valid(code ? null : names[text] ? `${text} (${names[text]})` : text);
    }
    case 12:
      try {
        return { text: quoted(new TextDecoder('utf-8', { fatal: true, ignoreBOM: true }).decode(held)) };
      } catch {
        return valid(null);
      }
    case 23:
      return valid(library.time('asn1v_der_utc_time', octets, part));
    case 24: {
      // The library reads times without a fraction of a second, so a fraction (X.690 11.7.3) is cut out first.
      const fraction = held.length < 100 && String.fromCharCode(...held).match(/^(\d{14})(\.\d*[1-9])Z$/);
      if (!fraction) return valid(library.time('asn1v_der_generalized_time', octets, part));
      const whole = new TextEncoder().encode(`${fraction[1]}Z`);
      const time = library.time('asn1v_der_generalized_time', whole, { first: 0, end: whole.length });
      return valid(time && time.replace(' UTC', `${fraction[2]} UTC`));
    }
  }
  if (tag in KINDS) {
    const { code, place, text } = library.string(KINDS[tag], octets, part);
    if (code === CODES.NO_UNICODE) return { text: hex(held) };
    if (code === CODES.ODD) return { fault: 'the octets are not whole characters' };
    if (code) return { fault: `character ${place} is not in the set of ${UNIVERSAL[tag]}` };
    return { text: quoted(text) };
  }
  return { text: hex(held) };
}

// Returns the elements in the contents of an OCTET STRING or a BIT STRING, if these are elements to their end.
export function within(library, octets, part, deepest = 8) {
  const tag = tagOf(part);
  if (part.isConstructed || deepest === 0 || (tag !== 3 && tag !== 4)) return [];
  const from = part.first + (tag === 3 ? 1 : 0);
  if (part.end - from < 2 || (tag === 3 && octets[part.first] !== 0)) return [];
  const found = [...elements(library, octets, from, part.end, part.level + 1)];
  if (found.some((it) => it.code) || found.some((it) => it.class === 0 && !(it.number in UNIVERSAL))) return [];
  return found.flatMap((it) => [{ ...it, isGuessed: true }, ...within(library, octets, it, deepest - 1)]);
}

// Reads all parts of octets, and those that octets and bits hold, each with its value or its fault. Yields after some
// thousand of them, and returns them at the end.
export function* reading(library, octets, names = {}) {
  const parts = [];
  let left = SOME;
  for (const found of elements(library, octets)) {
    for (const part of [found, ...within(library, octets, found)]) {
      if (part.code) part.fault = faultOf(part);
      else if (!part.isConstructed) Object.assign(part, valueOf(library, octets, part, names));
      parts.push(part);
    }
    if (--left > 0) continue;
    left = SOME;
    yield parts.length;
  }
  return parts;
}

// Adds to each part its parent, its children, its index among these and whether they are shown.
export function treeOf(parts) {
  const around = [], top = [];
  parts.forEach((part, i) => {
    while (around.length && parts[around.at(-1)].level >= part.level) around.pop();
    const parent = around.at(-1) ?? -1, kin = parent < 0 ? top : parts[parent].children;
    Object.assign(part, { parent, kin, children: [], isOpen: true, index: kin.push(i) });
    around.push(i);
  });
  return parts;
}
