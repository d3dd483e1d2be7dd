// The look of the pages: light and dark, side by side where there is room, one below the other on a phone. Colour never carries a meaning alone.
'use strict';

const COLOURS = `:root {
  --ground: #ffffff; --text: #1b1f23; --soft: #57606a; --line: #d0d7de; --row: #f3f5f7;
  --gone: #fbe3e0; --new: #dff3e2; --told: #fff4cf; --link: #0b5cad;
}
@media screen and (prefers-color-scheme: dark) {
  :root {
    --ground: #14181d; --text: #e6e8ea; --soft: #a2abb4; --line: #3a434c; --row: #1d232a;
    --gone: #55221e; --new: #173f22; --told: #453812; --link: #79b8ff;
  }
}
`;

const TEXT = `* { box-sizing: border-box; }
body { margin: 0 auto; padding: 1rem; max-width: 90rem; background: var(--ground); color: var(--text); font: 1rem/1.5 system-ui, sans-serif; }
h1 { font-size: 1.3rem; margin: 0 0 .5rem; overflow-wrap: anywhere; }
h2 { font-size: 1.1rem; margin: 1.5rem 0 .5rem; }
p { margin: .3rem 0; max-width: 50rem; }
a { color: var(--link); }
code, .code { font-family: ui-monospace, "DejaVu Sans Mono", monospace; font-size: .85rem; }
.soft { color: var(--soft); }
.verdict { border: 2px solid var(--text); border-left-width: .8rem; border-radius: .3rem; padding: .6rem .8rem; margin: .5rem 0 1rem; }
.verdict strong { font-size: 1.15rem; }
.sign { display: inline-block; min-width: 1.5em; font-weight: bold; text-align: center; }
table { border-collapse: collapse; width: 100%; }
th { text-align: left; font-weight: 600; }
.plain th, .plain td { padding: .2rem .6rem .2rem 0; border-bottom: 1px solid var(--line); vertical-align: top; }
.plain td.number, .plain th.number { text-align: right; width: 7.5rem; }
`;

const SIDES = `.sides { table-layout: fixed; border: 1px solid var(--line); }
.sides th, .sides td { padding: 0 .4rem; vertical-align: top; }
.sides thead th { border-bottom: 1px solid var(--line); padding: .2rem .4rem; }
.sides td.at { font-size: .85rem; line-height: 1.6; }
.sides .at { width: 4.2rem; text-align: right; color: var(--soft); white-space: pre; }
.sides .code { line-height: 1.6; white-space: pre-wrap; overflow-wrap: anywhere; tab-size: 4; }
.changed td { background: var(--row); }
.notes td { background: var(--told); padding: .2rem .6rem; }
.notes ul { margin: 0; padding-left: 3.8rem; list-style: none; }
.notes li { text-indent: -1.6rem; padding-left: 1.6rem; overflow-wrap: anywhere; }
del { background: var(--gone); text-decoration: line-through 1px; }
ins { background: var(--new); text-decoration: underline; }
ins.empty { font-style: italic; }
del, ins { border-radius: .15rem; padding: 0 .1rem; }
sup { font-size: .7em; line-height: 1; font-weight: bold; user-select: none; }
`;

const NARROW = `@media (max-width: 45rem) {
  body { padding: .6rem; }
  .sides thead { display: none; }
  .sides, .sides tbody { display: block; }
  .sides tr { display: grid; grid-template-columns: 3.4rem 1fr; }
  .sides .at { width: auto; }
  .sides tr.same .result, .sides td.none { display: none; }
  .sides tr.notes { display: block; }
  .sides tr.notes td { display: block; }
  .notes ul { padding-left: .4rem; }
  .plain thead { display: none; }
  .plain, .plain tbody { display: block; }
  .plain tr { display: flex; flex-wrap: wrap; gap: 0 .8rem; padding: .3rem 0; border-bottom: 1px solid var(--line); }
  .plain td { border: 0; padding: 0; overflow-wrap: anywhere; }
  .plain td.number { width: auto; }
  .plain td.number::before { content: attr(data-head) " "; color: var(--soft); }
}
`;

const PRINT = `@media print {
  @page { margin: 12mm; }
  body { max-width: none; padding: 0; font-size: 9.5pt; }
  code, .code, .sides td.at { font-size: 7.5pt; }
  .sides .at { width: 3.2rem; }
  tr, .verdict { break-inside: avoid; }
  tr.notes { break-before: avoid; }
  .changed td { border-top: 1px solid var(--line); }
  thead { display: table-header-group; }
  a { color: inherit; text-decoration: none; }
}
`;

const STYLE = COLOURS + TEXT + SIDES + NARROW + PRINT;

module.exports = { STYLE };
