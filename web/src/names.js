// Names of invisible characters, mostly those of Unicode.

const NAMES = new Map([
  [0x00, "null"], [0x09, "tab"], [0x0d, "carriage return"], [0x20, "space"], [0x7f, "delete"],
  [0xa0, "no-break space"], [0xad, "soft hyphen"], [0x034f, "combining grapheme joiner"],
  [0x061c, "Arabic letter mark"], [0x2003, "em space"], [0x200b, "zero width space"],
  [0x200c, "zero width non-joiner"], [0x200d, "zero width joiner"], [0x200e, "left-to-right mark"],
  [0x200f, "right-to-left mark"], [0x2028, "line separator"], [0x2029, "paragraph separator"],
  [0x202a, "left-to-right embedding"], [0x202b, "right-to-left embedding"],
  [0x202c, "pop directional formatting"], [0x202d, "left-to-right override"],
  [0x202e, "right-to-left override"], [0x202f, "narrow no-break space"], [0x2060, "word joiner"],
  [0x2066, "left-to-right isolate"], [0x2067, "right-to-left isolate"],
  [0x2068, "first strong isolate"], [0x2069, "pop directional isolate"],
  [0x2800, "empty Braille pattern"], [0x3000, "ideographic space"], [0x3164, "Hangul filler"], [0xfe0e, "text variation"], [0xfe0f, "emoji variation"],
  [0xfeff, "byte order mark"], [0xfffc, "object replacement character"],
]);

/** @param {number} code @returns {string} such as U+202E right-to-left override */
export function nameOf(code) {
  const number = `U+${code.toString(16).toUpperCase().padStart(4, "0")}`;
  return NAMES.has(code) ? `${number} ${NAMES.get(code)}` : number;
}
