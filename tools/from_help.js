// A manual page, or a completion for bash, from what a command says by --help on standard input:
//   node tools/from_help.js man NAME "what it does" VERSION DATE
//   node tools/from_help.js completion NAME
'use strict';

const fs = require('fs');

// `  -h, --help        this text`: an option and its words; further lines of words are indented far.
const OPTION = /^ {2,4}(-\S(?:.*?\S)?)(?: {2,}(\S.*))?$/;
const FURTHER = /^ {12,}(\S.*)$/;

const roff = (text) => text.replace(/\\/g, '\\e').replace(/-/g, '\\-').replace(/^([.'])/, '\\&$1');

// The text in paragraphs: { usage }, { head }, { option, words }, { lines } as they stand, or { words }.
function partsOf(help) {
  const parts = [];
  for (const line of help.trimEnd().split('\n')) {
    const last = parts.at(-1);
    const usage = /^(?:[Uu]sage:| {7})\s*(\S.*)$/.exec(line);
    const option = OPTION.exec(line);
    const further = FURTHER.exec(line);
    if (line === '') parts.push({});
    else if (usage && parts.every((part) => part.usage)) parts.push({ usage: usage[1] });
    else if (option) parts.push({ option: option[1], words: option[2] ? [option[2]] : [] });
    else if (further && last && last.option) last.words.push(further[1]);
    else if (/^\S.*:$/.test(line)) parts.push({ head: line.slice(0, -1) });
    else if (/^ {2}/.test(line)) parts.push({ line });
    else if (last && last.text) last.text.push(line);
    else parts.push({ text: [line] });
  }
  return parts;
}

function roffPart(part) {
  if (part.head) return [`.SS ${roff(part.head)}`];
  if (part.option) return ['.TP', `.B ${roff(part.option)}`, ...part.words.map(roff)];
  if (part.line) return ['.nf', roff(part.line), '.fi'];
  return part.text ? ['.PP', ...part.text.map(roff)] : [];
}

// The command's other manual pages are named at the end.
const PAGES = ['negbosun', 'negbosun-inline', 'negbosun-script'];

function manual(help, name, what, version, date) {
  const parts = partsOf(help);
  const usage = parts.filter((part) => part.usage).flatMap((part, index) => [...(index ? ['.br'] : []), `.B ${roff(part.usage)}`]);
  const body = parts.filter((part) => !part.usage).flatMap(roffPart);
  const others = PAGES.filter((page) => page !== name).map((page) => `.BR ${roff(page)} (1)`);
  return [
    `.TH ${name.toUpperCase()} 1 "${date}" "negbosun ${version}" "User Commands"`,
    '.SH NAME', `${roff(name)} \\- ${roff(what)}`, '.SH SYNOPSIS', ...usage, '.SH DESCRIPTION', ...body,
    '.SH SEE ALSO', ...others.flatMap((page, index) => (index ? [',', page] : [page])).filter((line) => line !== ','), '',
  ].join('\n');
}

// Each command has --help, whether its own words name it or not.
const longOptions = (help) => [...new Set(['--help', ...[...help.matchAll(/(?<![\w-])--[a-z][a-z-]*/g)].map((match) => match[0])])].sort();

// Values that an option takes, where they are few: those of --host stand below it, each on a line with what it means.
const namedBelow = (help) => [...help.matchAll(/^ {20,24}(\w+) {2,}\S/gm)].map((match) => match[1]).join(' ');
const VALUES = { '--host': namedBelow, '--format': () => 'json sarif junit gcc' };

function completion(help, name) {
  const options = longOptions(help);
  const valued = Object.entries(VALUES).filter(([option]) => options.includes(option)).map(([option, values]) => `    ${option}) COMPREPLY=($(compgen -W '${values(help)}' -- "$word")); return ;;`);
  const words = help.includes(`${name} canon`) ? [...options, 'canon', 'resolve', 'print', 'same'] : options;
  const called = `_${name.replace(/-/g, '_')}`;
  return `# Completion of ${name} for bash.
${called}() {
    local word=\${COMP_WORDS[COMP_CWORD]} before=\${COMP_WORDS[COMP_CWORD - 1]}
    [ "$word" != = ] || word=
    [ "$before" != = ] || before=\${COMP_WORDS[COMP_CWORD - 2]}
    case $before in
${valued.length ? `${valued.join('\n')}\n` : ''}    esac
    case $word in
    -*) COMPREPLY=($(compgen -W '${words.filter((one) => one.startsWith('-')).join(' ')}' -- "$word")) ;;
    *) COMPREPLY=($(compgen -W '${words.filter((one) => !one.startsWith('-')).join(' ')}' -- "$word") $(compgen -f -- "$word")) ;;
    esac
    return 0
}
complete -o filenames -F ${called} ${name}
`;
}

const [kind, name, ...rest] = process.argv.slice(2);
const help = fs.readFileSync(0, 'utf8');
process.stdout.write(kind === 'man' ? manual(help, name, ...rest) : completion(help, name));
