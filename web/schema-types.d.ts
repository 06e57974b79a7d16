/** The table that web/build/schema.mjs makes. */
export interface Table {
  forms: string[];
  layers: string[];
  definitions: { [name: string]: Entry };
}

/** A name, of a definition or of what needs none (`string`, `any` ..); a choice; or what a value has to be. */
export type Entry =
  | string
  | Entry[]
  | { words: string[] }
  | { longest: number }
  | { least: number; most: number }
  | { list: Entry }
  | { row: Entry[] }
  | Members;

/** What an object has, beside what the one has that it is like. It is known by the first name that it needs. */
export interface Members {
  has: { [name: string]: Entry };
  needs?: string[];
  like?: string;
  isOpen?: boolean;
}

/** What a value may be, made of entries. `asked` says it in words. */
export type Node = Single | Choice;
export type Single = Plain | Truth | Whole | Text | List | Form;

interface Asked {
  asked: string;
}

export interface Plain extends Asked {
  type: 'any' | 'null';
}

export interface Truth extends Asked {
  type: 'boolean';
  isTrue: boolean;
}

export interface Whole extends Asked {
  type: 'number';
  least: number;
  most: number;
}

export interface Text extends Asked {
  type: 'string';
  words: Set<string> | null;
  longest: number;
}

/** A list of any length, or a row, which has no `item`. */
export interface List extends Asked {
  type: 'array';
  item: Node | null;
  row: Node[];
}

export interface Form extends Asked {
  type: 'object';
  needs: string[];
  members: Map<string, Node>;
  isOpen: boolean;
}

/** One of several, at most one of each type, but for objects. These are told apart by the member that names them. */
export interface Choice extends Asked {
  type: 'choice';
  of: Map<string, Single>;
  named: Map<string, Named>;
}

/** The forms that have a naming member in common, and which of them each of its words means, if it has words. */
export interface Named extends Asked {
  forms: Form[];
  words: Map<unknown, Form>;
}
