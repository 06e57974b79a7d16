// Why a line was refused, in words for a reader.

/** @typedef {import('./replies.js').Cause} Cause */
/** @typedef {import('./replies.js').Details} Details */
/** @typedef {import('./replies.js').Refusal} Refusal */

/** @type {Record<Details['NoSelection'], string>} */
const unfit = {
  none: 'Nothing is selected.',
  range: "This can't be done with the text that is selected.",
  nodes: "This can't be done with the object that is selected.",
  cells: "This can't be done with the cells that are selected.",
};

/** @type {Record<Details['TooLarge'][0], string>} */
const large = {
  depth: 'The document is too deep.',
  nodes: 'The document has too many parts.',
  characters: 'The document has too much text.',
  key: 'The document has been changed too often. Save it and open it again.',
  hosts: 'The document has been changed too often. Save it and open it again.',
  written: 'This is too much to do at once.',
};

/** @type {{ [C in Cause]: (detail: Details[C]) => string | undefined }} */
const sentences = {
  BadLine: () => "The editor can't read what it was asked to do.",
  BadCommand: () => "The editor doesn't know how to do this.",
  UnknownNode: () => 'That part of the document is no longer there.',
  WrongKind: () => "This can't be done here.",
  BadPlace: () => 'There is no such place in the document.',
  NoSelection: detail => oneOf(unfit, detail),
  SelectionLost: () => 'What was selected is no longer there.',
  NoRest: () => 'The automatic corrections never come to an end.',
  StepLimit: () => 'This is too much to do at once.',
  DispatchDepth: () => 'Too many commands set each other off.',
  TooLarge: detail => oneOf(large, detail?.[0]),
  UnknownType: () => "The document has something in it that this editor doesn't know.",
  BadState: () => "The document is damaged and can't be opened.",
  EmptyState: () => 'The document is empty.',
  HistoryInside: () => "Undo and redo can't be part of another change.",
  TooManyRules: () => 'There are too many automatic corrections.',
};

/**
 * The sentence of a name; a core that is newer than this may have other names.
 * @template {string} Name
 * @param {Record<Name, string>} named
 * @param {Name} name
 * @returns {string | undefined}
 */
function oneOf(named, name) {
  return Object.hasOwn(named, name) ? named[name] : undefined;
}

/**
 * A sentence that says why a line was refused.
 * @param {Refusal} refusal
 * @returns {string}
 */
export function explain(refusal) {
  if (typeof refusal !== 'object' || refusal === null) throw new TypeError('a refusal is an object');
  const { cause, detail } = refusal;
  /** @type {((detail: any) => string | undefined) | undefined} */
  const say = Object.hasOwn(sentences, cause) ? sentences[cause] : undefined;
  return say?.(detail) ?? "This can't be done.";
}
