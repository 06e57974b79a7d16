// Makes web/playground.html of web/index.html: one file, with its styles, its scripts and the module inside, which
// opens from a disk.
//
//     node web/build/page.mjs            makes it
//     node web/build/page.mjs --check    says whether it is what would be made
//
// Each script becomes a function that answers what it exports, behind those that it imports. So there is one script,
// and no name of one meets that of another. Scripts that import each other in a circle can't be put in order. Comments
// with lines of their own are left out. Styles, script and module are packed by gzip; the file begins with what unpacks
// them.
import { existsSync, readFileSync, writeFileSync } from 'node:fs';
import { dirname, join, relative } from 'node:path';
import { fileURLToPath } from 'node:url';
import { gunzipSync, gzipSync } from 'node:zlib';

const web = fileURLToPath(new URL('..', import.meta.url));
const made = join(web, 'playground.html');
const read = file => readFileSync(join(web, file), 'utf8');

const fromOther = /^(import|export) (\{[^}]*\}|\* as \w+|\*|\w+) from '(\.[^']+)';[^\n]*\n/gm;
const forEffect = /^import '(\.[^']+)';[^\n]*\n/gm;
const declared = /^export ((?:async )?function\*?|class|const) (\w+)/gm;
const listed = /^export \{([^}]*)\};[^\n]*\n/gm;
const comments = /^[ \t]*(?:\/\*\*(?:(?!\*\/)[^])*\*\/[ \t]*|\/\/.*)\n/gm; // with lines of their own
const dynamic = /\bawait import\('(\.[^']+)'\)/g;

/** What a script is called in the file: names of files have no underscore. */
const nameOf = file => `$${file.replace(/\.js$/, '').replace(/[^a-z0-9]/gi, '_')}`;

/** `{ a, b as c }`, as `[['a', 'a'], ['b', 'c']]`. */
const pairsOf = words => words.replace(/[{}\s]+/g, ' ').split(',').filter(word => word.trim()).map(word => {
  const [name, as = name] = word.trim().split(' as ');
  return [name, as];
});

/** Puts a script behind those that it imports. */
function gather(file, gathered, waiting = []) {
  if (gathered.has(file)) return;
  if (waiting.includes(file)) throw new Error(`${[...waiting, file].join(' -> ')} is a circle`);
  const others = [];
  const at = path => {
    const other = join(dirname(file), path);
    if (!others.includes(other)) others.push(other);
    return nameOf(other);
  };
  const answered = [];
  const body = read(file)
    .replace(comments, '')
    .replace(fromOther, (_, word, names, path) => {
      const from = at(path);
      if (word === 'import') return importOf(names, from);
      answered.push(names === '*' ? `...${from}` : pairsOf(names).map(([name, as]) => `${as}: ${from}.${name}`));
      return '';
    })
    .replace(forEffect, (_, path) => `${at(path) && ''}`)
    .replace(dynamic, (_, path) => at(path))
    .replace(declared, (_, word, name) => {
      answered.push(name);
      return `${word} ${name}`;
    })
    .replace(listed, (_, names) => {
      answered.push(pairsOf(names).map(([name, as]) => (name === as ? name : `${as}: ${name}`)));
      return '';
    });
  const left = /^(import|export)\b[^(\n]*/m.exec(body);
  if (left) throw new Error(`${file}: this form isn't known here: ${left[0]}`);
  for (const other of others) gather(other, gathered, [...waiting, file]);
  const answer = answered.length > 0 ? `return { ${answered.flat().join(', ')} };\n` : '';
  gathered.set(file, `// ---- ${file}\nconst ${nameOf(file)} = await (async () => {\n${body.trim()}\n${answer}})();\n`);
}

function importOf(names, from) {
  if (names.startsWith('*')) return `const ${names.slice('* as '.length)} = ${from};\n`;
  if (!names.startsWith('{')) return `const ${names} = ${from}.default;\n`;
  const taken = pairsOf(names).map(([name, as]) => (name === as ? name : `${name}: ${as}`));
  return `const { ${taken.join(', ')} } = ${from};\n`;
}

function scriptOf(file) {
  const gathered = new Map();
  gather(file, gathered);
  return [...gathered.values()].join('\n');
}

/** Unpacks the styles and the script in the page. page/module.js does the same for the module. */
const unpacking = `<script type="module">
// What is packed above lies in web/, as it is written. These are its styles and its script.
for (const name of ['style', 'script']) {
  const packed = atob(document.getElementById(\`packed-\${name}\`).textContent);
  const bytes = Uint8Array.from(packed, character => character.charCodeAt(0));
  const unpacked = new Blob([bytes]).stream().pipeThrough(new DecompressionStream('gzip'));
  const element = document.createElement(name);
  if (name === 'script') element.type = 'module';
  element.textContent = await new Response(unpacked).text();
  document.head.append(element);
}
</script>`;

/** What is packed, as the file has it already if it is the same: other versions of zlib write other bytes. */
function packed(id, content) {
  const start = `<script type="application/gzip" id="${id}">\n`, bytes = Buffer.from(content);
  const kept = existsSync(made) && readFileSync(made, 'utf8').split(start)[1]?.split('<')[0];
  const isKept = kept && gunzipSync(Buffer.from(kept, 'base64')).equals(bytes);
  const text = isKept ? kept : gzipSync(bytes, { level: 9 }).toString('base64').replace(/.{1,120}/g, '$&\n');
  return `${start}${text}</script>\n`;
}

/** The text of the file. */
function pageText() {
  const styles = [];
  const page = read('index.html')
    .replace('<title>', `<!-- web/build/page.mjs makes this file of others in web/: change nothing here. -->\n<title>`)
    .replace(/<link rel="stylesheet" href="([^"]+)">\n/g, (_, file) => `${styles.push(read(file)) && ''}`);
  return page.replace(/<script type="module" src="([^"]+)"><\/script>/, (_, file) => [
    packed('packed-style', styles.join('\n')),
    packed('packed-script', scriptOf(file)),
    packed('lexical-wasm', readFileSync(join(web, 'lexical.wasm'))),
    unpacking,
  ].join(''));
}

if (process.argv[1] === fileURLToPath(import.meta.url)) {
  const text = pageText(), path = relative(process.cwd(), made);
  if (process.argv[2] !== '--check') {
    writeFileSync(made, text);
    console.log(`${path}: ${Math.round(text.length / 1000)} kB`);
  } else if (!existsSync(made) || readFileSync(made, 'utf8') !== text) {
    console.error(`${path} isn't what its parts make: node web/build/page.mjs makes it anew`);
    process.exitCode = 1;
  }
}
