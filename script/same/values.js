// Numbers for values: equal number, equal value in every run. A value is plain that is known to be a number, text, true, false, null or undefined: no object, no symbol, no big integer.
'use strict';

class Values {
  constructor() {
    this.ids = new Map();
    this.plain = new Set();
  }

  // The number of a value made up of parts; the same parts give the same number.
  make(isPlain, ...parts) {
    const key = JSON.stringify(parts);
    if (!this.ids.has(key)) this.ids.set(key, `n${this.ids.size}`);
    const id = this.ids.get(key);
    if (isPlain) this.plain.add(id);
    return id;
  }

  isPlain(id) { return this.plain.has(id); }
  get undefined() { return this.make(true, 'undefined'); }
  get null() { return this.make(true, 'null'); }
}

const LOGICAL = new Set(['&&', '||', '??']);
// They look at their operands and convert nothing (7.2 IsStrictlyEqual, 7.1.2 ToBoolean, 13.5.2, 13.5.3); they ask an object, or fail (13.10.1); their answer is plain, or they throw.
const LOOKING = new Set(['void', 'typeof', '!', '===', '!==']);
const ASKING = new Set(['in', 'instanceof']);
const ANSWER_PLAIN = new Set('void typeof ! delete == != === !== < <= > >= in instanceof >>>'.split(' '));

// Conversions of plain operands call nothing (7.1.1 ToPrimitive, 7.1.4 ToNumber, 7.1.17 ToString), and `==` with null or undefined converts nothing (7.2 IsLooselyEqual).
function isPure(op, operands, values) {
  const isEmptiness = (op === '==' || op === '!=') && operands.some((operand) => operand === values.null || operand === values.undefined);
  return !ASKING.has(op) && (LOOKING.has(op) || isEmptiness || operands.every((operand) => values.isPlain(operand)));
}

// With one plain operand an answer is no big integer, or the operator throws (13.15.3 ApplyStringOrNumericBinaryOperator); unary `+` answers a number or throws (13.5.4).
const answersPlain = (op, arePlain) => ANSWER_PLAIN.has(op) || arePlain.includes(true) || (op === '+' && arePlain.length === 1);

module.exports = { Values, LOGICAL, answersPlain, isPure };
