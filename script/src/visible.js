// Texts that others wrote, as they may stand on a terminal: what would steer it, or turn the order of what is read, is written out.
'use strict';

// Of the control characters a tab alone stands as it is; of the others those that a reader takes for a line's end or does not see, or that change the
// direction of what follows.
const STEERING = new RegExp([
  '[\\u0000-\\u0008\\u000a-\\u001f\\u007f-\\u009f\\u00ad\\u061c\\u180e\\u200b-\\u200f\\u2028-\\u202e\\u2060-\\u206f\\ufeff\\ufff9-\\ufffb]',
  // halves of characters
  '[\\ud800-\\udbff](?![\\udc00-\\udfff])', '(?<![\\ud800-\\udbff])[\\udc00-\\udfff]',
  // tags, which are not seen
  '\\udb40[\\udc00-\\udfff]',
].join('|'), 'g');

const hex = (code, width) => code.toString(16).padStart(width, '0');

// \x1b of one byte, <U+202E> of more.
function written(sign) {
  const code = sign.codePointAt(0);
  return code < 0x100 ? `\\x${hex(code, 2)}` : `<U+${hex(code, 4).toUpperCase()}>`;
}

const visible = (text) => String(text).replace(STEERING, written);

// The same in JSON, where they are written as JSON has them.
const visibleJson = (json) => json.replace(STEERING, (sign) => (sign === '\n' ? sign : [...Array(sign.length).keys()].map((at) => `\\u${hex(sign.charCodeAt(at), 4)}`).join('')));

module.exports = { visible, visibleJson };
