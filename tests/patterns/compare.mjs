// Compares patterns as `pattern_table` reads them with a JavaScript engine, whose RegExp is ECMA-262.
//
//   node compare.mjs make COUNT SEED > patterns.txt
//   (cd ../../crates/pattern_table && rt run < ../../tests/patterns/patterns.txt) > answers.txt
//   node compare.mjs judge patterns.txt answers.txt
//
// Every pattern that is accepted must be accepted by the engine, and the two must find the same words. Every pattern
// with a fault of syntax or order must be refused by the engine under the flag `u`. The flag is left out only where
// a pattern uses what ECMA-262 has without it alone, such as a literal `{`. A pattern of which a form is refused must
// have that form. Where no pattern is accepted, nothing was compared, and the script fails.
import { readFileSync } from 'node:fs';

// a small generator of numbers, so that a seed gives the same patterns everywhere
function random(seed) {
  let state = BigInt(seed) * 6364136223846793005n + 1442695040888963407n;
  return (below) => {
    state = (state * 6364136223846793005n + 1442695040888963407n) & ((1n << 64n) - 1n);
    return Number((state >> 33n) % BigInt(below));
  };
}

const LETTERS = ['a', 'b', 'c', 'x', '0', '9', '-', '_', ' ', 'é', '😀', '/', ','];
const ESCAPES = ['\\d', '\\D', '\\w', '\\W', '\\s', '\\S', '\\t', '\\n', '\\0', '\\x61', '\\u0062', '\\u{63}',
  '\\u{1F600}', '\\uD83D\\uDE00', '\\.', '\\*', '\\\\', '\\]', '\\-', '\\^', '\\/', '\\q', '\\b', '\\1', '\\p{L}',
  '\\uD83D', '\\x6', '\\u{}', '\\cA', '\\k'];
const QUANTIFIERS = ['*', '+', '?', '{2}', '{0}', '{1,}', '{1,2}', '{0,3}', '{2,1}', '{,2}', '{', '{2', '{16385}'];

function makeClass(pick) {
  let text = pick(3) === 0 ? '[^' : '[';
  for (let n = pick(5); n > 0; n -= 1) {
    const kind = pick(6);
    if (kind === 0) text += ESCAPES[pick(ESCAPES.length)];
    else if (kind === 1) text += `${'acx09'[pick(5)]}-${'acx09'[pick(5)]}`;
    else if (kind === 2) text += '-';
    else text += LETTERS[pick(LETTERS.length)];
  }
  return pick(40) === 0 ? text : `${text}]`;
}

function makeAtom(pick, depth) {
  const kind = pick(12);
  if (kind < 5) return LETTERS[pick(LETTERS.length)];
  if (kind === 5) return '.';
  if (kind === 6) return ESCAPES[pick(pick(2) === 0 ? 6 : ESCAPES.length)];
  if (kind < 9) return makeClass(pick);
  if (depth === 0) return 'a';
  const head = ['(', '(?:', '(', '(?:', '(', '(?=', '(?<n>', '(?'][pick(pick(6) === 0 ? 8 : 5)];
  return head + makeBody(pick, depth - 1) + (pick(30) === 0 ? '' : ')');
}

function makeTerm(pick, depth) {
  const kind = pick(20);
  if (kind === 0) return '^';
  if (kind === 1) return '$';
  if (kind === 2) return [']', '}', '{', ')', '*'][pick(pick(4) === 0 ? 5 : 3)];
  let text = makeAtom(pick, depth);
  if (pick(3) === 0) text += QUANTIFIERS[pick(pick(4) === 0 ? QUANTIFIERS.length : 8)];
  if (pick(10) === 0) text += '?';
  return text;
}

function makeBody(pick, depth) {
  const alternatives = [];
  for (let n = pick(4) === 0 ? 2 : 1; n > 0; n -= 1) {
    let terms = '';
    for (let k = pick(4); k > 0; k -= 1) terms += makeTerm(pick, depth);
    alternatives.push(terms);
  }
  return alternatives.join('|');
}

function make(count, seed) {
  const pick = random(seed);
  for (let n = 0; n < count; n += 1) console.log(makeBody(pick, 2));
}

// reads a tree as it is printed: `empty`, `start`, `end`, `[61-7a,e9]`, `(seq ..)`, `(alt ..)`, `(repeat 1 - ..)`
function readTree(text) {
  const words = text.match(/\(|\)|[^\s()]+/g);
  let at = 0;
  function tree() {
    const word = words[at++];
    if (word !== '(') {
      if (!word.startsWith('[')) return { kind: word };
      const ranges = word.slice(1, -1).split(',').filter((range) => range !== '').map((range) => {
        const [first, last] = range.split('-').map((code) => Number.parseInt(code, 16));
        return [first, last ?? first];
      });
      return { kind: 'set', ranges };
    }
    const kind = words[at++];
    const node = { kind, parts: [] };
    if (kind === 'repeat') {
      node.low = Number(words[at++]);
      node.high = words[at] === '-' ? Infinity : Number(words[at]);
      at += 1;
    }
    while (words[at] !== ')') node.parts.push(tree());
    at += 1;
    return node;
  }
  return tree();
}

// the places at which a match that begins at one of the places can end
function ends(tree, word, places) {
  const found = new Set();
  switch (tree.kind) {
    case 'empty': return places;
    case 'start': return new Set([...places].filter((i) => i === 0));
    case 'end': return new Set([...places].filter((i) => i === word.length));
    case 'set':
      for (const i of places) {
        if (i < word.length && tree.ranges.some(([a, b]) => a <= word[i] && word[i] <= b)) found.add(i + 1);
      }
      return found;
    case 'seq': return tree.parts.reduce((now, part) => ends(part, word, now), places);
    case 'alt':
      for (const part of tree.parts) for (const j of ends(part, word, places)) found.add(j);
      return found;
    default: {
      let now = places;
      const enough = Math.min(tree.high, tree.low + word.length + 1);
      for (let k = 0; k <= enough; k += 1) {
        if (k >= tree.low) for (const j of now) found.add(j);
        now = ends(tree.parts[0], word, now);
        if (now.size === 0) break;
      }
      return found;
    }
  }
}

function finds(tree, word) {
  const codes = [...word].map((c) => c.codePointAt(0));
  return ends(tree, codes, new Set(codes.map((_, i) => i).concat(codes.length))).size > 0;
}

function compiled(pattern, flags) {
  try {
    return new RegExp(pattern, flags);
  } catch {
    return null;
  }
}

function makeWords(pick) {
  const words = ['', 'a', 'ab', 'abc', 'b', 'c', '-', '0', '99', 'a\nb', '\u2028', '😀', '😀😀', 'é', ' ', '\t', '_', '{', '}', ']',
    'aa', 'aaa', 'x-9', '\u0000', '\ufeff', 'a{2', 'a{,2}'];
  for (let n = 0; n < 25; n += 1) {
    let word = '';
    for (let k = pick(7); k > 0; k -= 1) word += LETTERS[pick(LETTERS.length)];
    words.push(word);
  }
  return words;
}

// how the forms look that `pattern_table` refuses by name
const FORMS = {
  lookaround: /\(\?/, boundary: /\\[bB]/, property: /\\[pP]/, control: /\\c/, backreference: /\\[1-9]/, octal: /\\0\d/,
  namedgroup: /\\k|\(\?</, surrogate: /\\u/, repeattoowide: /\d{5}/, nesting: /\(/,
};

// whether the pattern has the form that the answer names
function hasForm(pattern, answer) {
  const [fault, form] = answer.split(' ');
  const look = FORMS[fault === 'unsupported' ? form : fault];
  return look !== undefined && look.test(pattern);
}

function judge(patterns, answers) {
  const pick = random(7);
  const counts = { accepted: 0, withoutFlag: 0, words: 0, refused: 0, mixed: 0, wrong: 0 };
  patterns.forEach((pattern, n) => {
    const answer = answers[n];
    const wrong = (why) => { counts.wrong += 1; console.log(`${why}: ${pattern} => ${answer}`); };
    if (/^(syntax|rangeorder|quantifierorder) /.test(answer)) {
      counts.refused += 1;
      if (compiled(pattern, 'u') !== null) wrong('the engine accepts');
      return;
    }
    if (/^(unsupported|repeattoowide) /.test(answer)) {
      counts.refused += 1;
      if (!hasForm(pattern, answer)) wrong('lacks the form');
      return;
    }
    let engine = compiled(pattern, 'u');
    let words = makeWords(pick);
    if (engine === null) {
      // without the flag the engine has no `\u{..}` and takes a character past U+FFFF for two
      if (/\\u\{|\\uD83D|[\u{10000}-\u{10ffff}]/u.test(pattern)) { counts.mixed += 1; return; }
      engine = compiled(pattern, '');
      words = words.filter((word) => !/[\u{10000}-\u{10ffff}]/u.test(word));
      counts.withoutFlag += 1;
    }
    counts.accepted += 1;
    if (engine === null) { wrong('the engine refuses'); return; }
    const tree = readTree(answer);
    for (const word of words) {
      counts.words += 1;
      if (finds(tree, word) !== engine.test(word)) wrong(`differs at ${JSON.stringify(word)}`);
    }
  });
  console.log(JSON.stringify(counts));
  if (counts.accepted === 0) console.log('no pattern was accepted, so nothing was compared');
  process.exitCode = counts.wrong === 0 && counts.accepted > 0 ? 0 : 1;
}

const [command, first, second] = process.argv.slice(2);
if (command === 'make') make(Number(first), Number(second));
else judge(...[first, second].map((name) => readFileSync(name, 'utf8').split('\n').slice(0, -1)));
