// Inline content between a document and Markdown: runs of text, code, links, embeds and breaks, each with its formats.

/**
 * A run. White space, breaks and embeds have no formats of their own in Markdown: they have what stands on both sides.
 * @typedef {{ kind: 'text', text: string, format: number } | { kind: 'code', text: string, format: number }} TextRun
 * @typedef {{ kind: 'break', format: number }} BreakRun
 * @typedef {{ kind: 'embed', address: string, format: number }} EmbedRun
 * @typedef {{ kind: 'link', address: string, title: string | null, runs: Run[], format: number }} LinkRun
 * @typedef {TextRun | BreakRun | EmbedRun | LinkRun} Run
 */

export const BOLD = 1, ITALIC = 2, STRIKE = 4, CODE = 16;
export const MARKED = BOLD | ITALIC | STRIKE; // what Markdown has delimiters for

/**
 * The runs with formats that can be written: spaces at the edge of a format lose it, texts of one format are one run.
 * @param {readonly Run[]} runs
 * @param {number} [around] the formats of what the runs stand in
 * @returns {Run[]}
 */
export function settled(runs, around = 0) {
  const parted = runs.flatMap(parts);
  let before = around;
  for (let start = 0, end = 0; start < parted.length; start = end + 1) {
    let shared = before; // by all spaces between two that have formats of their own, and by these
    for (end = start; end < parted.length && isNeutral(parted[end]); end += 1) {
      if (parted[end].kind === 'text') shared &= parted[end].format;
    }
    const after = end < parted.length ? parted[end].format : around;
    for (let index = start; index < end; index += 1) parted[index] = withFormat(parted[index], shared & after);
    before = after;
  }
  return joined(parted);
}

/** @param {Run} run */
const isNeutral = run => run.kind === 'break' || run.kind === 'embed' || (run.kind === 'text' && run.text.trim() === '')
  || (run.kind === 'link' && run.runs.every(isBare));

/** @param {Run} run */
const isBare = run => run.kind === 'break' || run.kind === 'embed';

/**
 * @param {Run} run one without a format of its own
 * @param {number} format
 * @returns {Run}
 */
function withFormat(run, format) {
  return run.kind === 'link' ? { ...run, format, runs: settled(run.runs, format) } : { ...run, format };
}

/**
 * A text parted from the white space at its ends; a link with what all of its texts share.
 * @param {Run} run
 * @returns {Run[]}
 */
function parts(run) {
  if (run.kind === 'link') {
    const format = run.runs.reduce((shared, inner) => isBare(inner) ? shared : shared & inner.format, MARKED);
    return [{ ...run, format, runs: settled(run.runs, format) }];
  }
  if (run.kind !== 'text') return [run];
  const start = run.text.length - run.text.trimStart().length;
  const end = Math.max(start, run.text.trimEnd().length);
  return [run.text.slice(0, start), run.text.slice(start, end), run.text.slice(end)]
    .filter(text => text !== '').map(text => ({ ...run, text }));
}

/**
 * Neighbours of one kind and format become one, without empty texts.
 * @param {readonly Run[]} runs
 * @returns {Run[]}
 */
function joined(runs) {
  /** @type {Run[]} */
  const made = [];
  /** @type {string[]} */
  let texts = [];
  const flush = () => {
    const last = made.at(-1);
    if (last && 'text' in last) made[made.length - 1] = { ...last, text: texts.join('') };
  };
  for (const run of runs) {
    const last = made.at(-1);
    if ('text' in run && last?.kind === run.kind && last.format === run.format) {
      texts.push(run.text);
    } else if (!('text' in run) || run.text !== '') {
      flush();
      made.push(run);
      texts = 'text' in run ? [run.text] : [];
    }
  }
  flush();
  return made;
}

/**
 * The runs with a break instead of each of theirs that another one stands for, as a space in a table.
 * @param {readonly Run[]} runs
 * @param {string} text
 * @returns {Run[]}
 */
export function withoutBreaks(runs, text) {
  return runs.map(run => {
    if (run.kind === 'break') return { kind: 'text', text, format: run.format };
    return run.kind === 'link' ? { ...run, runs: withoutBreaks(run.runs, text) } : run;
  });
}

/**
 * Whether there are breaks, also in links.
 * @param {readonly Run[]} runs
 * @returns {boolean}
 */
export const hasBreaks = runs => runs.some(run => run.kind === 'break' || (run.kind === 'link' && hasBreaks(run.runs)));

/**
 * The runs without breaks at the end, which Markdown reads as backslashes.
 * @param {readonly Run[]} runs
 * @param {(what: string) => void} lose
 * @returns {Run[]}
 */
export function withoutLastBreaks(runs, lose) {
  let end = runs.length;
  while (runs[end - 1]?.kind === 'break') end -= 1;
  if (end < runs.length) lose('line breaks at the end of a block');
  return runs.slice(0, end);
}
