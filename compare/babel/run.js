// run.js PROGRAMS [FOLDER]: the inputs of inputs.js through react-refresh/babel,
// through the published Rust and through the rules (`oracle` and `reference` in
// the folder PROGRAMS), summed up side by side. With FOLDER each input's form,
// source, notes and results are kept there. Writes cases.txt beside this file: the
// inputs as a table of cases. Needs @babel/core,
// @babel/plugin-syntax-jsx and react-refresh in NODE_PATH.
'use strict';
const { execFileSync } = require('child_process');
const fs = require('fs');
const os = require('os');
const path = require('path');
const babel = require('@babel/core');
const generate = require('@babel/generator').default;
const jsx = require('@babel/plugin-syntax-jsx').default;
const refresh = require('react-refresh/babel');
const { toForm } = require('./form.js');
const { inputs } = require('./inputs.js');

const [programs, keep] = process.argv.slice(2);
if (!programs) {
  console.error('arguments: PROGRAMS [FOLDER]');
  process.exit(2);
}

// What either side did: signature calls in the order they stand in, each with
// whom it signs, where its handle is declared and what it says; registrations.
function runBabel(source) {
  let result;
  try {
    result = babel.transformSync(source, {
      babelrc: false,
      configFile: false,
      ast: true,
      plugins: [jsx, [refresh, { skipEnvCheck: true, emitFullSignatures: true }]],
    });
  } catch (error) {
    return { code: '', failed: error.constructor.name };
  }
  const done = { code: result.code, signed: [], registered: [], declared: [] };
  const short = (node) => generate(node, { compact: true, comments: false }).code;
  babel.traverse(result.ast, {
    CallExpression(p) {
      const { callee, arguments: args } = p.node;
      if (callee.type !== 'Identifier') return;
      if (callee.name === '$RefreshReg$') done.registered.push(args[1].value);
      if (/^_s\d*$/.test(callee.name) && args.length > 1) {
        const list = args[3] ? args[3].body.body[0].argument.elements.map(short) : [];
        done.signed.push({
          handle: callee.name,
          who: whoBabel(args[0]),
          text: args[1].value,
          reset: args.length > 2 && args[2].value,
          list,
        });
      }
    },
    VariableDeclarator(p) {
      if (p.node.init && p.node.init.callee && p.node.init.callee.name === '$RefreshSig$') {
        done.declared.push(p.scope.path.isProgram() ? 'module' : 'inside');
      }
    },
  });
  return done;
}

function whoBabel(node) {
  if (node.type === 'Identifier') return node.name;
  if (node.type === 'CallExpression') {
    // A signature call again, or a call around it.
    if (/^_s\d*$/.test(node.callee.name)) return whoBabel(node.arguments[0]);
    return `the call of ${node.callee.name}`;
  }
  return node.type === 'ArrowFunctionExpression' ? 'the arrow' : 'the function';
}

function run(program, input) {
  const folder = fs.mkdtempSync(path.join(os.tmpdir(), 'refresh-'));
  const file = (name) => path.join(folder, name);
  fs.writeFileSync(file('in.form'), toForm(input.source));
  fs.writeFileSync(file('in.src'), input.source);
  const notes = (input.notes || []).map((n) => `${n.side} ${n.position} "${n.text}"\n`).join('');
  fs.writeFileSync(file('in.notes'), notes);
  const files = ['in.form', 'in.src', 'in.notes'].map(file);
  const made = program === 'oracle' ? ['--made'] : [];
  const printed = execFileSync(path.join(programs, program), [...made, ...files]).toString();
  fs.rmSync(folder, { recursive: true });
  return { code: printed, ...readForms(printed) };
}

// Reads a printed module back: [kind, lo, hi, ...].
function forms(text) {
  const tokens = text.match(/\(|\)|"(?:\\.|[^"\\])*"|[^\s()]+/g);
  let at = 0;
  const one = () => {
    if (tokens[at] !== '(') return tokens[at++];
    at++;
    const form = [];
    while (tokens[at] !== ')') form.push(one());
    at++;
    return form;
  };
  const all = [];
  while (at < tokens.length) all.push(one());
  return all;
}

function readForms(printed) {
  const done = { signed: [], registered: [], declared: [] };
  const text = (str) => JSON.parse(str[3].replace(/[\u0000-\u001f]/g, ' '));
  const walk = (form, inside) => {
    if (!Array.isArray(form)) return;
    if (form[0] === 'call') {
      const [callee, ...args] = form.slice(3);
      if (callee[0] === 'hand' && args.length > 0) {
        const list = args[3] ? args[3][4][4][3].slice(3).map(source) : [];
        done.signed.push({
          handle: callee[3] + callee[4],
          who: args[0][0] === 'id' ? args[0][3] : args[0][0] === 'arrow' ? 'the arrow' : 'the function',
          text: text(args[1]),
          reset: args.length > 2 && args[2][3] === 'true',
          list,
        });
      }
      if (callee[3] === '$RefreshReg$') done.registered.push(text(args[1]));
    }
    if (form[0] === 'decl' && form[3][0] === 'hand' && form[4]) {
      done.declared.push(inside ? 'inside' : 'module');
    }
    form.forEach((part) => walk(part, inside || form[0] === 'block'));
  };
  forms(printed).forEach((form) => walk(form, false));
  return done;
}

function source(form) {
  return form[0] === 'member' ? `${source(form[3])}.${form[4][3]}` : form[3];
}

function words(done, input) {
  if (done.failed) return `fails with ${done.failed}`;
  const parts = done.signed.map((s) => {
    const said = [`\`${s.text.replace(/\n/g, '⏎')}\``];
    if (s.reset) said.push('reset');
    if (s.list.length) said.push(`[${s.list.join(', ')}]`);
    return `${s.who}: ${said.join(', ')}`;
  });
  if (input.handles && done.declared.length) {
    parts.push(`handle declared ${done.declared[0] === 'module' ? 'in the module' : 'inside'}`);
  }
  const plain = done.registered.map((name) => `\`${name}\``);
  if (parts.length === 0) parts.push('no signature');
  parts.push(plain.length ? `registers ${plain.join(', ')}` : 'registers nothing');
  return parts.join('; ');
}

const rows = [];
let table = '';
const cell = (text) => text.replace(/\|/g, '\\|').replace(/\n/g, '⏎');
const line = (cells) => console.log(`| ${cells.map(cell).join(' | ')} |`);
const notesOf = (input) =>
  (input.notes || []).map((n) => `${n.side} ${n.position} "${n.text}"\n`);
inputs.forEach((input) => {
  const one = runBabel(input.babel || input.source);
  const other = run('oracle', input);
  const ours = run('reference', input);
  const [left, right, here] = [one, other, ours].map((done) => words(done, input));
  const code = input.babel || input.source;
  const quoted = code.includes('`') ? `\`\` ${code} \`\`` : `\`${code}\``;
  const shown = quoted + (input.told ? ` ${input.told}` : '');
  rows.push({ name: input.name, shown, left, right, here, why: input.why || '' });
  const form = toForm(input.source);
  const notes = notesOf(input);
  const escaped = input.source.replace(/\\/g, '\\\\').replace(/\n/g, '\\n');
  table += `case ${input.name}\nsource ${escaped}\n`;
  table += `${notes.map((note) => 'note ' + note).join('')}form\n${form}end\n`;
  if (keep) {
    const folder = path.join(keep, input.name);
    fs.mkdirSync(folder, { recursive: true });
    const put = (name, text) => fs.writeFileSync(path.join(folder, name), text);
    put('in.form', form);
    put('in.src', input.source);
    if (notes.length) put('in.notes', notes.join(''));
    put('babel.js', one.code + '\n');
    put('rust.form', other.code);
    put('rules.form', ours.code);
  }
});
fs.writeFileSync(path.join(__dirname, 'cases.txt'), table);

const version = (name) => require(`${name}/package.json`).version;
console.log(`## Where Babel differs

Run side by side: the Babel plugin of react-refresh ${version('react-refresh')} (Debian's package of the React 18.2.0 sources) under @babel/core ${version('@babel/core')}, with the options \`{skipEnvCheck: true, emitFullSignatures: true}\`; the Rust; and the rules written plainly, the last two as \`compare/\` has them. The ${rows.length} inputs stand in \`compare/babel/inputs.js\`, and \`compare/babel/run.js\` runs them and writes this section. \`compare/babel/form.js\` brings each input into the form, with the scopes that swc's resolver is understood to give: 1 for the module's names, 9 for names declared nowhere, another for each function and block.

A cell tells the signature calls in the order in which they stand: whom they sign, the signature (\`⏎\` is a line feed), "reset" if they say \`true\`, and the custom hooks listed in \`[…]\`; then the names registered.

### Decided as in the Rust

This pass is a port of the Rust and is held to it tree by tree; Babel's plugin is where the Rust comes from, but not what is followed where the two part. In every row the rules gave what the Rust gave.
`);
const likeRust = rows.filter((r) => r.left !== r.right && r.right === r.here);
line(['name', 'input', 'Babel', 'the Rust and the rules', 'the rule']);
console.log('|---|---|---|---|---|');
likeRust.forEach((r) => line([r.name, r.shown, r.left, r.right, r.why]));
console.log(`
In the rows \`comment-…\` the comment reaches the Rust and the rules as a note, and it is the caller who says on which side and where. If it is kept as a trailing note at the end of the node before it, the rules do force the reset, as Babel does: that is the first fault, in the next table.

### Decided against the Rust

What the three faults look like in JavaScript.
`);
line(['name', 'input', 'Babel', 'the Rust', 'the rules']);
console.log('|---|---|---|---|---|');
const faults = rows.filter((r) => r.right !== r.here);
faults.forEach((r) => line([r.name, r.shown, r.left, r.right, r.here]));
console.log(`
In \`fault-key\` and \`fault-key-pattern\` Babel also signs the call around the function, as in \`call-around\`; that is not followed.

### Alike

In these ${rows.length - likeRust.length - faults.length} all three gave the same, told in these terms:
`);
rows
  .filter((r) => r.left === r.right && r.right === r.here)
  .forEach((r) => console.log(`- ${r.name}: ${r.shown.replace(/\n/g, '⏎')}`));
