// The inputs run through both. `babel` is the source with its comment, where the
// form's source has none and `notes` tells it instead.
'use strict';

const text = ' @refresh reset ';

// A source with a comment at ⟪⟫: with it for Babel; as a note for the others, on
// the side said, leading at the token behind or trailing at the token before.
function commented(source, side) {
  const [before, after] = source.split('⟪⟫');
  const position =
    side === 0
      ? before.length + after.match(/^\s*/)[0].length + 1
      : before.replace(/\s+$/, '').length + 1;
  return {
    source: before + after,
    babel: `${before}/*${text}*/${after}`,
    notes: [{ side, position, text }],
    told: side === 0 ? '(as a leading note)' : '(as a trailing note)',
  };
}

const inputs = [
  { name: 'react-imported', source: "import React from 'react'; function Foo(){React.useThing();}", why: '`React` is told by its name; its hooks are never listed' },
  { name: 'react-global', source: 'function Foo(){React.useThing();}', why: 'the same' },
  { name: 'member-of-member', source: "import a from 'a'; function Foo(){a.b.useThing();}", why: 'only a member of an identifier is custom' },
  { name: 'hook-of-hook', source: "import {useA} from 'a'; function Foo(){useA().useB();}", why: 'nothing inside a statement’s hook call is searched; only a member of an identifier is custom' },
  { name: 'global-member', source: 'function Foo(){Math.useThing();}', why: 'known are the module’s names and those of blocks around' },
  { name: 'hook-local', source: 'function Foo(){const useL=1; useL();}', why: 'a function’s own body is not around it' },
  { name: 'hook-parameter', source: 'function Foo(useP){useP();}', why: 'the same' },
  { name: 'hook-own-name', source: 'run(function useOwn(){useOwn();});', why: 'a function’s own name is in no block around it; only the function is signed' },
  { name: 'hook-in-block', source: 'function Foo(c){if(c){useState(0);}}', why: 'blocks are not entered' },
  { name: 'hook-in-hook', source: 'function Foo(){useA(useB());}', why: 'nothing inside a statement’s hook call is searched' },
  { name: 'hook-in-hook-arrow', source: 'const Foo=()=>useA(useB());', why: 'a search takes a hook call after those inside it' },
  { name: 'two-declarators', source: 'function Foo(){const a=1,b=useState(0);}', why: 'a declarator that is no hook call searches the whole statement' },
  { name: 'own-default', source: 'function Foo(a=useState(0)){return a;}', why: 'a function’s own parameters are no part of its body' },
  { name: 'inner-default', source: 'function Foo(){const f=(a=useState(0))=>a;}', why: 'parameters inside the body are searched' },
  { name: 'arrow-in-default', source: 'const Foo=(f=()=>{useState(0);})=>f;', why: 'the parameters of a named initialiser are left as they are' },
  { name: 'pattern-initialised', source: 'const [f]=()=>{useState(0);};', why: 'any function with hooks gets a signature call' },
  { name: 'call-around', source: 'function Foo(){run(()=>{useState(0);});}', why: 'the function alone is signed' },
  { name: 'wrapped-and-used', source: 'const Foo=memo(()=>1); const Bar=()=><Foo/>;', why: 'what is used in JSX is registered as it stands' },
  { name: 'lower-used', source: 'const foo=make(); createElement(foo);', why: 'use in JSX counts for any name' },
  { name: 'second-argument', source: 'const Foo=make(); createElement(x,Foo);', why: 'only the first argument is a use' },
  { name: 'require-inside', source: 'const Foo=myrequire(1); const a=<Foo/>;', why: 'a name that contains `require` is left out' },
  { name: 'import-prefix', source: 'const Foo=importThing(1); const a=<Foo/>;', why: 'only the word `import` itself is left out' },
  { name: 'comment-in-braces', ...commented("import {a\n⟪⟫} from 'a'; function Foo(){useState(0);}", 0), why: 'notes count at the edges of nodes' },
  { name: 'comment-in-parameters', ...commented('function Foo(⟪⟫){useState(0);}', 0), why: 'the same' },
  { name: 'comment-in-parameters-trailing', ...commented('function Foo(⟪⟫){useState(0);}', 1), why: 'the same' },
  { name: 'comment-before-operator', ...commented('function Foo(a){useState(0);return a\n⟪⟫+ 1;}', 0), why: 'the same' },
  { name: 'comment-before-else', ...commented('function Foo(c){useState(0);if(c){}\n⟪⟫else {}}', 0), why: 'the same' },
  { name: 'two-functions', source: 'const a=()=>{useState(0);},b=()=>{useRef();};', why: 'signature statements stand in the order in which they were made' },
  { name: 'arrow-in-arrow', source: 'const f=()=>()=>{useState(0);};', handles: true, why: 'an expression body is no block when its functions are treated' },
  { name: 'fault-comment-behind', ...commented('function Foo(){useState(0);}⟪⟫', 1), why: 'fault of the Rust, put right' },
  { name: 'fault-comment-in-braces', ...commented("import {a ⟪⟫} from 'a'; function Foo(){useState(0);}", 1), why: 'the same' },
  { name: 'fault-comment-before-operator', ...commented('function Foo(a){useState(0);return a ⟪⟫+ 1;}', 1), why: 'the same' },
  { name: 'fault-comment-before-else', ...commented('function Foo(c){useState(0);if(c){} ⟪⟫else {}}', 1), why: 'the same' },
  { name: 'fault-attribute', source: 'const Foo=f();<a b={<Foo/>}/>;', why: 'fault of the Rust, put right' },
  { name: 'fault-key', source: 'function f(){useState(()=>useRef());}', why: 'fault of the Rust, put right; the call around is not signed' },
  { name: 'fault-key-pattern', source: 'function f(){const [a]=useState(function(){useB();});}', why: 'the same' },
  // Alike.
  { name: 'plain', source: 'function Foo(){useState(0);}' },
  { name: 'hook-in-if', source: 'function Foo(c){if(c)useState(0);}' },
  { name: 'reducer', source: 'function Foo(){const [s,d]=useReducer(r,0);}' },
  { name: 'custom-imported', source: "import {useA} from 'a'; function Foo(){const x=useA();}" },
  { name: 'custom-global', source: 'function Foo(){useA();}' },
  { name: 'custom-twice', source: "import {useA} from 'a'; function Foo(){useA();useA();}" },
  { name: 'member-imported', source: "import * as h from 'h'; function Foo(){h.useA(1);}" },
  { name: 'require-prefix', source: 'const Foo=requireThing(1); const a=<Foo/>;' },
  { name: 'used-in-jsx', source: 'const Foo=make(); const a=<Foo/>;' },
  { name: 'tagged-used', source: 'const Foo=styled.div`a`; const a=<Foo/>;' },
  { name: 'default-export', source: 'export default function Foo(){const [a,b]=useState(0);return <a/>;}' },
  { name: 'default-unnamed', source: 'export default function(){useState(0);}' },
  { name: 'exported-arrow', source: 'export const Foo=()=>{useEffect(()=>1);return 1;};' },
  { name: 'arrow-of-arrow', source: 'const Foo=()=>()=>1;' },
  { name: 'inner-function', source: 'function Foo(){useState(0);const g=()=>{useRef();};return g;}' },
  { name: 'comment-before', ...commented('⟪⟫function Foo(){useState(0);}', 0) },
  { name: 'comment-before-name', ...commented("import {⟪⟫a} from 'a'; function Foo(){useState(0);}", 0) },
];

module.exports = { inputs };
