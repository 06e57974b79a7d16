import type { Alignment, Direction, HeadingTag, ListType, OneOf, TextMode } from './lines.js';

/** What a line is answered. A member tells which: `if (reply.refused)`, `if (reply.commit !== undefined)`. */
export type Reply = OneOf<Committed | Idle | Gathered | Registered | Refused | Cleared | Shown>;

/** What a line did is committed. `handled` is there for a dispatch, `view` if the editor was opened with `view`. */
export interface Committed {
  commit: number;
  ops: Operation[];
  handled?: boolean;
  view?: string;
}

/** Nothing was new. `handled` is there for a dispatch. */
export interface Idle {
  idle: true;
  handled?: boolean;
}

/** An update waits: how many do. */
export interface Gathered {
  gathered: number;
}

/** A listener is registered: how many are. */
export interface Registered {
  registered: number;
}

/** The history is forgotten. */
export interface Cleared {
  cleared: true;
}

/** The line changed nothing. `step` is the index of its own step that was running, if one was. */
export interface Refused {
  refused: Refusal;
}

/** A cause, its code and what is told of it. */
export type Refusal = { [C in Cause]: { cause: C; code: number; detail: Details[C]; step: number | null } }[Cause];

export type Cause = keyof Details;

/** What each cause tells. */
export interface Details {
  BadLine: null;
  BadCommand: null;
  /** the key or the name */
  UnknownNode: number | string;
  /** the type */
  WrongKind: string;
  /** the offset, the index or the key */
  BadPlace: number;
  NoSelection: 'none' | 'range' | 'nodes' | 'cells';
  /** the point; or the key, of cells that were selected */
  SelectionLost: ReplyPoint | number;
  NoRest: number;
  StepLimit: number;
  DispatchDepth: number;
  TooLarge: [limit: 'depth' | 'nodes' | 'characters' | 'key' | 'hosts' | 'written', reached: number];
  /** the type */
  UnknownType: string;
  /** a JSON pointer */
  BadState: string;
  EmptyState: null;
  HistoryInside: null;
  TooManyRules: number;
}

/** Replies to questions. */
export type Shown =
  | { state: Document }
  | { view: string }
  | { selection: ReplySelection }
  | { history: { undo: number; redo: number } }
  | { slice: Slice | null };

/** A node, and an offset in its text in UTF-16 code units, or among its children. */
export type ReplyPoint = [key: number, offset: number, kind: 'text' | 'element'];

/** Nothing, a range, nodes, or two cells of a table. */
export type ReplySelection =
  | null
  | { kind: 'range'; anchor: ReplyPoint; focus: ReplyPoint; format: number }
  | { kind: 'nodes'; keys: number[] }
  | { kind: 'cells'; anchor: number; focus: number; table: number };

/** A change of a client's tree of elements, its hosts, of which host 0 is there from the start. */
export type Operation =
  | [name: 'create', id: number, key: number, tag: string, attributes: Attributes, text: string | null, ending: boolean]
  | [name: 'place', parent: number, child: number, before: number | null]
  | [name: 'drop', id: number]
  | [name: 'text', id: number, text: string]
  | [name: 'attr', id: number, attribute: string, value: string | null]
  | [name: 'break', id: number, ending: boolean];

/** The attributes of a new host: their names and values. */
export type Attributes = Record<string, string>;

/** A document to store, which a line `load` takes. */
export interface Document {
  root: RootNode;
}

/** What was selected, to be pasted: the payload of `paste` is its JSON. */
export interface Slice {
  namespace: 'lexical-core';
  nodes: DocumentNode[];
}

interface Element {
  children: DocumentNode[];
  direction: Direction;
  format: Alignment;
  indent: number;
  textFormat?: number;
  textStyle?: string;
  version: 1;
}

export type RootNode = Element & { type: 'root' };

/** A node below the root. */
export type DocumentNode =
  | (Element & { type: 'paragraph' | 'quote' | 'table' | 'tablerow' })
  | (Element & { type: 'heading'; tag: HeadingTag })
  | (Element & { type: 'list'; listType: ListType; start: number; tag: 'ul' | 'ol' })
  | (Element & { type: 'listitem'; value: number; checked?: boolean })
  | (Element & { type: 'link'; url: string; rel: string | null; target: string | null; title: string | null })
  | (Element & {
    type: 'tablecell';
    headerState: number;
    colSpan: number;
    rowSpan: number;
    backgroundColor: string | null;
  })
  | { type: 'text'; text: string; format: number; style: string; detail: number; mode: TextMode; version: 1 }
  | { type: 'tab'; text: '\t'; format: number; style: string; detail: 2; mode: 'normal'; version: 1 }
  | { type: 'linebreak' | 'horizontalrule'; version: 1 }
  | { type: 'embed'; src: string; version: 1 };

export {}; // so that what isn't exported above stays in this file
