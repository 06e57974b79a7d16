/**
 * Lines that an editor takes, as examples/lines.schema.json has them. Types can't say that numbers are whole, nor in what
 * range they are. Lines about views and outlines (`hub`, `ask`) are left out: they need the program.
 */
export type Line = OneOf<
  UpdateLine | FlushLine | DispatchLine | RuleLine | ListenerLine | LoadLine | ShowLine | ClearLine
>;

/** Members of a union without each other's properties: so forms can't be mixed, and each property may be asked for. */
export type OneOf<U, P extends PropertyKey = PropertyOf<U>> = U extends unknown
  ? U & { [K in Exclude<P, keyof U>]?: undefined }
  : never;

type PropertyOf<U> = U extends unknown ? keyof U : never;

/** What may stand beside any line: its time in milliseconds, without which it has that of the line before. */
interface Timed {
  at?: number;
}

/** How the history records a commit: `historic`, `history-merge` and `history-push`; other words say nothing. */
interface Tagged extends Timed {
  tags?: string[];
}

/** All of the steps, or none. Deferred, it waits for a line that commits it. */
export interface UpdateLine extends Tagged {
  update: Step[];
  defer?: boolean;
}

/** Commits what waits. */
export interface FlushLine extends Tagged {
  flush: true;
}

/** A command, offered to listeners and to what is built in. */
export interface DispatchLine extends Tagged {
  dispatch: CommandName;
  payload?: Payload;
}

export interface RuleLine extends Timed {
  rule: Rule;
}

export interface ListenerLine extends Timed {
  listener: Listener;
}

/** Any value is a document: it is read as it is loaded, and refused if it is none. */
export interface LoadLine extends Tagged {
  load: unknown;
}

export interface ShowLine extends Timed {
  show: 'state' | 'view' | 'selection' | 'history' | 'slice';
}

export interface ClearLine extends Timed {
  clear: 'history';
}

/** A key; or a name, which a step gave, or `@anchor`, `@focus` or `@block`. */
export type NodeReference = number | string;

/** A node, and an offset in its text in UTF-16 code units, or among its children. */
export type Point = [node: NodeReference, offset: number, kind: 'text' | 'element'];

/** Nothing, a range, nodes, or two cells of a table. */
export type Selection = null | OneOf<
  | { anchor: Point; focus: Point; format?: number }
  | { keys: NodeReference[] }
  | { anchor: NodeReference; focus: NodeReference; table: NodeReference }
>;

/** A text, or what `insert-table` takes. */
export type Payload = null | string | [rows: number, columns: number, headers: boolean];

export type BuiltInCommand =
  | 'undo' | 'redo'
  | 'insert-text' | 'remove-text' | 'insert-paragraph' | 'insert-line-break' | 'insert-tab'
  | 'delete-character' | 'delete-word' | 'format-text' | 'select-all'
  | 'cut' | 'paste'
  | 'make-list' | 'remove-list' | 'indent' | 'outdent' | 'toggle-checked'
  | 'insert-table' | 'insert-row' | 'insert-column' | 'delete-row' | 'delete-column' | 'merge-cells' | 'unmerge';

/** A built-in command, or one of your own, which listeners handle. */
export type CommandName = BuiltInCommand | (string & {});

export type Step = OneOf<
  | { append: string }
  | NewStep
  | { put: NodeReference; into: NodeReference; at?: number }
  | { remove: NodeReference }
  | { replace: NodeReference; with: NodeReference; keep?: boolean }
  | { set: NodeReference; fields: FieldsToSet }
  | { mark: NodeReference }
  | { split: NodeReference; at: number[]; as?: string }
  | { join: NodeReference; with: NodeReference }
  | { wrap: NodeReference; in: NodeReference }
  | { unwrap: NodeReference }
  | { children: NodeReference; into: NodeReference }
  | { select: Selection }
  | { do: BuiltInCommand; payload?: Payload }
  | { dispatch: CommandName; payload?: Payload }
  | LaterStep
>;

/** Queues steps, which run after all others of the line. */
export interface LaterStep {
  later: Step[];
}

/** A listener for a command, from priority 4, which is asked first, down to 0. */
export interface Listener {
  on: CommandName;
  priority: 0 | 1 | 2 | 3 | 4;
  when?: { payload?: string; selection?: string; block?: string };
  steps: Step[];
  handled: boolean;
}

export type Direction = 'ltr' | 'rtl' | null;
export type Alignment = '' | 'left' | 'center' | 'right' | 'justify' | 'start' | 'end';
export type HeadingTag = 'h1' | 'h2' | 'h3' | 'h4' | 'h5' | 'h6';
export type ListType = 'bullet' | 'number' | 'check';
export type TextMode = 'normal' | 'token' | 'segmented';

/** What the fields of each type of node are, as rules set them and replies tell them. */
export interface FieldsByType {
  root: ElementFields;
  paragraph: ElementFields;
  quote: ElementFields;
  table: ElementFields;
  tablerow: ElementFields;
  heading: ElementFields & { tag?: HeadingTag };
  list: ElementFields & { listType?: ListType; start?: number };
  listitem: ElementFields & { checked?: boolean | null; value?: number };
  link: ElementFields & { url?: string; rel?: string | null; target?: string | null; title?: string | null };
  tablecell: ElementFields & {
    headerState?: number;
    colSpan?: number;
    rowSpan?: number;
    backgroundColor?: string | null;
  };
  text: { text?: string; format?: number; style?: string; detail?: number; mode?: TextMode };
  tab: { format?: number; style?: string };
  linebreak: {};
  horizontalrule: {};
  embed: { src?: string };
}

export interface ElementFields {
  direction?: Direction;
  format?: Alignment;
  indent?: number;
  textFormat?: number;
  textStyle?: string;
}

export type NodeType = keyof FieldsByType;

type FieldName = PropertyOf<FieldsByType[NodeType]>;
type Field<T extends NodeType, F> = F extends keyof FieldsByType[T] ? FieldsByType[T][F] : undefined;

/** Null stands for what is so by default. An item's `value` comes from its place. */
export type NewFields<T extends NodeType> = {
  [F in FieldName]?: F extends keyof FieldsByType[T] ? (F extends 'value' ? null : Field<T, F> | null) : undefined;
};

/** What a rule may set: `tag`, `listType` and `value` stay as they are. */
export type RuleFields<T extends NodeType> = {
  [F in FieldName]?: F extends 'tag' | 'listType' | 'value' ? undefined : Field<T, F>;
};

/** What a step `set` may write. Which of these a node has, its type says: another one is refused as `WrongKind`. */
export interface FieldsToSet {
  direction?: Direction;
  format?: Alignment | number;
  indent?: number;
  textFormat?: number;
  textStyle?: string;
  tag?: HeadingTag;
  listType?: ListType;
  start?: number;
  checked?: boolean | null;
  value?: number;
  rel?: string | null;
  target?: string | null;
  title?: string | null;
  url?: string;
  headerState?: number;
  colSpan?: number;
  rowSpan?: number;
  backgroundColor?: string | null;
  text?: string;
  style?: string;
  detail?: number;
  mode?: TextMode;
  src?: string;
}

/** Makes a node without a parent, of any type but `root`. */
export type NewStep = {
  [T in Exclude<NodeType, 'root'>]: { new: T; fields?: NewFields<T>; as?: string };
}[Exclude<NodeType, 'root'>];

/** What a rule makes. */
export type NewNode = { [T in NodeType]: { type: T; fields?: NewFields<T> } }[NodeType];

export type Condition = OneOf<
  | { text: string }
  | { contains: string }
  | { shorter: number }
  | { format: number }
  | { parent: NodeType }
  | { previous: NodeType | null }
  | { next: NodeType | null }
  | { childless: true }
>;

export type Edit<T extends NodeType> = OneOf<
  | { remove: true }
  | { replace: NewNode }
  | { wrap: NewNode }
  | { unwrap: true }
  | { before: NewNode }
  | { after: NewNode }
  | { child: NewNode }
  | { mergenext: true }
  | { set: RuleFields<T> }
  | (T extends 'text' ? { add: string } : never)
>;

/** What is done at nodes of a type for which all conditions hold, until nothing is left to do. */
export type Rule = { [T in NodeType]: { on: T; if: Condition[]; do: Edit<T>[] } }[NodeType];

export {}; // so that what isn't exported above stays in this file
