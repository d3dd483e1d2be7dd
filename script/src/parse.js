// Text to the parser's tree, with syntax errors and unsupported constructs told by their place.
'use strict';

const acorn = require('acorn');
const { isObjectBody, tokenAt, unclosed } = require('./brackets');
const { ScriptTrouble, trouble } = require('./trouble');
const { MODULE, findUnsupported, message } = require('./unsupported');

const PARSER = { ecmaVersion: 2022, sourceType: 'script', preserveParens: true, locations: true, ranges: true, allowHashBang: true };

// The parser names modules and some newer syntax only in its message.
const SYNTAX = [
  [/'import' and 'export' may appear only/, message(MODULE)],
  [/Cannot use 'import.meta'/, message(['import.meta', 'a name of the host'])],
];

// A bracket that is not closed is seldom where the parser stumbles.
function bracketHint(text) {
  const open = unclosed(text, PARSER);
  return open && `the ${open.label} of line ${open.at.line}, column ${open.at.column + 1} is not closed, or one inside it`;
}

// What cannot even be cut into words: nothing is known of the brackets behind it.
const UNREADABLE = [
  [/^Unterminated string/, 'a text ends on the line on which it begins, with the quote that it begins with'],
  [/^Unterminated template/, 'a template ends with a backquote; it cannot be built anyway: write strings joined by `+`'],
  [/^Unterminated comment/, 'a comment that begins with /* ends with */'],
  [/^Unterminated regular/, 'a regular expression cannot be built anyway; write string methods such as `indexOf`'],
  [/^Unexpected character '[\u2018-\u201f\u00ab\u00bb\u2039\u203a]'/, 'texts stand in straight quotes: "open" or \'open\''],
  [/^Unexpected character/, null],
];

const LONGEST = 30;
const quoted = (token) => `\`${token.length > LONGEST ? `${token.slice(0, LONGEST)}...` : token}\``;

// Words that mean something only in functions of their kind, and are names everywhere else.
const WAITING = { await: message(['await', 'a function that is called when the value is there']), yield: message(['yield', 'a function that returns its values in an array']) };

function unexpected(error, text) {
  const found = tokenAt(text, PARSER, error.pos);
  if (!found) return trouble(error.loc, 'syntax error: Unexpected token', bracketHint(text));
  const { token, before } = found;
  if (WAITING[token]) return trouble(error.loc, WAITING[token]);
  if (before && WAITING[before.text]) return trouble(before.at, WAITING[before.text]);
  const hint = isObjectBody(text, PARSER, error.pos) ? 'an object that an arrow gives stands in parentheses: `=> ({level: 1, open: true})`' : bracketHint(text);
  return trouble(error.loc, `syntax error: Unexpected token ${quoted(token)}`, hint);
}

function syntaxTrouble(error, text) {
  const known = SYNTAX.find(([pattern]) => pattern.test(error.message));
  if (known) return trouble(error.loc, known[1]);
  const plain = error.message.replace(/ \(\d+:\d+\)$/, '');
  const unreadable = UNREADABLE.find(([pattern]) => pattern.test(plain));
  if (unreadable) return trouble(error.loc, `syntax error: ${plain}`, unreadable[1]);
  if (plain !== 'Unexpected token') return trouble(error.loc, `syntax error: ${plain}`, bracketHint(text));
  return error.pos >= text.trimEnd().length ? trouble(error.loc, 'syntax error: the script ends too early', bracketHint(text)) : unexpected(error, text);
}

// What is refused of a module's text, all of it, where it can be read as one; null where it cannot.
function moduleFindings(text) {
  try {
    return findUnsupported(acorn.parse(text, { ...PARSER, allowImportExportEverywhere: true }), text);
  } catch (error) {
    if (error instanceof SyntaxError) return null;
    throw error;
  }
}

function refusedText(error, text) {
  const findings = SYNTAX[0][0].test(error.message) ? moduleFindings(text) : null;
  return findings ? new ScriptTrouble(findings) : syntaxTrouble(error, text);
}

function parse(text) {
  let program;
  try {
    program = acorn.parse(text, PARSER);
  } catch (error) {
    if (error instanceof SyntaxError && error.loc) throw refusedText(error, text);
    throw error;
  }
  const findings = findUnsupported(program, text);
  if (findings.length) throw new ScriptTrouble(findings);
  return program;
}

module.exports = { parse, PARSER };
