// As much of node as the package uses, for the check of its types: node's own types may not be there.
declare const process: {
  versions?: { node?: string };
  argv: string[];
  exitCode: number;
  stdin: AsyncIterable<Uint8Array> & { destroy(): void };
  stdout: {
    write(bytes: Uint8Array, done: (fault?: Error | null) => void): void;
    on(event: 'error', heard: () => void): void;
  };
};

declare module 'node:fs' {
  export function fstatSync(file: number): { isDirectory(): boolean };
}
