// From JavaScript to the text form, as swc's resolver would number the scopes:
// 1 for the module, 9 for names that are declared nowhere (an element's name in
// lower case is one), one for each function (its parameters and its body's block),
// one for each other block, and one for a function expression's own name.
'use strict';
const { parse } = require('@babel/parser');
const traverse = require('@babel/traverse').default;

const NOWHERE = 9;

function toForm(source) {
  const ast = parse(source, { sourceType: 'module', plugins: ['jsx'] });
  const numbers = new Map();
  let last = 1;
  const fresh = () => (++last === NOWHERE ? ++last : last);
  const numberOf = (key) => {
    if (!numbers.has(key)) numbers.set(key, fresh());
    return numbers.get(key);
  };
  const scopes = new Map();
  const resolve = (path) => {
    const binding = path.scope.getBinding(path.node.name);
    if (!binding) scopes.set(path.node, NOWHERE);
    else if (binding.scope.path.isProgram()) scopes.set(path.node, 1);
    else if (binding.kind === 'local') scopes.set(path.node, numberOf(binding));
    else scopes.set(path.node, numberOf(binding.scope));
  };
  traverse(ast, {
    Identifier: resolve,
    JSXIdentifier(path) {
      const named = path.parentPath.isJSXOpeningElement();
      if (named && /^[a-z]/.test(path.node.name)) scopes.set(path.node, NOWHERE);
      else resolve(path);
    },
    BlockStatement(path) {
      scopes.set(path.node, numberOf(path.scope));
    },
  });

  const span = (n) => `${n.start + 1} ${n.end + 1}`;
  const form = (kind, n, ...parts) => `(${[kind, span(n), ...parts].join(' ')})`;
  const all = (list) => list.filter((n) => n && n.type !== 'JSXText').map(any);
  const maybe = (n) => (n ? [any(n)] : []);
  const name = (n) => (n ? any(n) : '-');
  const fail = (n) => {
    throw new Error(`no kind for ${n.type}`);
  };

  function any(n) {
    switch (n.type) {
      case 'ImportDeclaration':
        return form('import', n, ...n.specifiers.map((s) => any(s.local)));
      case 'ExportNamedDeclaration':
        return form('export', n, any(n.declaration));
      case 'ExportDefaultDeclaration': {
        const d = n.declaration;
        if (d.type !== 'FunctionDeclaration') return form('defexpr', n, any(d));
        return form('deffn', n, name(d.id), ...all(d.params), any(d.body));
      }
      case 'ExpressionStatement':
        return form('expr', n, any(n.expression));
      case 'VariableDeclaration':
        return form('var', n, n.kind, ...all(n.declarations));
      case 'VariableDeclarator':
        return form('decl', n, any(n.id), ...maybe(n.init));
      case 'FunctionDeclaration':
        return form('func', n, any(n.id), ...all(n.params), any(n.body));
      case 'ReturnStatement':
        return form('return', n, ...maybe(n.argument));
      case 'IfStatement':
        return form('if', n, any(n.test), any(n.consequent), ...maybe(n.alternate));
      case 'BlockStatement':
        return form('block', n, scopes.get(n), ...all(n.body));
      case 'Identifier':
      case 'JSXIdentifier':
        return form('id', n, n.name, scopes.get(n));
      case 'NumericLiteral':
      case 'StringLiteral':
      case 'BooleanLiteral':
      case 'NullLiteral':
        return form('lit', n);
      case 'CallExpression':
        return form('call', n, any(n.callee), ...all(n.arguments));
      case 'Import':
        return form('kwimport', n);
      case 'MemberExpression':
        if (n.computed) fail(n);
        return form('member', n, any(n.object), form('prop', n.property, n.property.name));
      case 'JSXMemberExpression':
        return form('member', n, any(n.object), form('prop', n.property, n.property.name));
      case 'ArrayExpression':
        return form('array', n, ...all(n.elements));
      case 'UnaryExpression':
        return form('op', n, any(n.argument));
      case 'BinaryExpression':
      case 'LogicalExpression':
        return form('op', n, any(n.left), any(n.right));
      case 'ConditionalExpression':
        return form('op', n, any(n.test), any(n.consequent), any(n.alternate));
      case 'AssignmentExpression':
        return form('assign', n, any(n.left), any(n.right));
      case 'ArrowFunctionExpression':
        return form('arrow', n, ...all(n.params), any(n.body));
      case 'FunctionExpression':
        return form('fn', n, name(n.id), ...all(n.params), any(n.body));
      case 'TaggedTemplateExpression':
        return form('tagged', n, any(n.tag), ...all(n.quasi.expressions));
      case 'JSXElement': {
        const opening = n.openingElement;
        return form('jsx', n, any(opening.name), ...all(opening.attributes), ...all(n.children));
      }
      case 'JSXAttribute':
        return form('attr', n, any(n.value));
      case 'JSXExpressionContainer':
        return any(n.expression);
      case 'ArrayPattern':
        return form('pat', n, ...all(n.elements));
      case 'AssignmentPattern':
        return form('dflt', n, any(n.left), any(n.right));
      default:
        return fail(n);
    }
  }

  const items = ast.program.body.map(any);
  return [`(module 1 ${source.length + 1})`, ...items].map((line) => line + '\n').join('');
}

module.exports = { toForm };
