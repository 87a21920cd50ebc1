// Octets from text that is pasted, and text from octets.

// Returns the octets that a text says, and the name of its form: PEM (RFC 7468), whose blocks follow one another,
// hexadecimal or base64 (RFC 4648).
export function octetsOf(text) {
  const blocks = [...text.matchAll(/-----BEGIN ([^-\n]*)-----([^]*?)-----END \1-----/g)];
  if (blocks.length) {
    const octets = joined(...blocks.map((it) => ofBase64(it[2].replace(/^[\w-]+:.*$/gm, ''))));
    return { octets, form: `PEM, ${[...new Set(blocks.map((it) => it[1]))].join(', ')}` };
  }
  const bare = text.replace(/0x|[\s:,]/gi, '');
  if (bare && /^[0-9a-f]+$/i.test(bare)) {
    if (bare.length % 2) throw new Error('a hexadecimal digit is missing');
    return { octets: Uint8Array.from(bare.match(/../g), (it) => parseInt(it, 16)), form: 'hexadecimal' };
  }
  return { octets: ofBase64(text), form: 'base64' };
}

function ofBase64(text) {
  const bare = text.replace(/\s/g, '').replace(/-/g, '+').replace(/_/g, '/').replace(/=+$/, '');
  const bad = bare.search(/[^A-Za-z0-9+/]/);
  if (bad >= 0) throw new Error(`this is neither PEM, hexadecimal nor base64: ${bare.slice(bad, bad + 8)}`);
  if (bare.length % 4 === 1) throw new Error('a character of base64 is missing');
  return Uint8Array.from(atob(bare), (it) => it.charCodeAt(0));
}

// Returns octets that follow one another.
export function joined(...pieces) {
  const made = new Uint8Array(pieces.reduce((sum, it) => sum + it.length, 0));
  let at = 0;
  for (const it of pieces) {
    made.set(it, at);
    at += it.length;
  }
  return made;
}

export function base64Of(octets) {
  let text = '';
  for (let i = 0; i < octets.length; i += 8192) text += String.fromCharCode(...octets.subarray(i, i + 8192));
  return btoa(text);
}

// The forms in which octets are copied.
export const FORMS = {
  hexadecimal: (octets) => Array.from(octets, (it) => it.toString(16).padStart(2, '0')).join(''),
  base64: base64Of,
  PEM: (octets) => `-----BEGIN DATA-----\n${base64Of(octets).replace(/.{64}(?=.)/g, '$&\n')}\n-----END DATA-----\n`,
  'C array': (octets) => {
    const rows = [];
    for (let i = 0; i < octets.length; i += 12)
      rows.push(`    ${Array.from(octets.subarray(i, i + 12), (it) => `0x${it.toString(16).padStart(2, '0')},`).join(' ')}`);
    return `static const unsigned char octets[${octets.length}] = {\n${rows.join('\n')}\n};\n`;
  },
};
