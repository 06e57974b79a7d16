/** Schemes that run nothing where a link is followed: `http`, `https`, `mailto`, `tel`. */
export const safeSchemes: readonly string[];

/** Properties that change how a text looks, and neither where it stands nor what is fetched. */
export const safeProperties: readonly string[];

/**
 * Whether an address may be followed: it is relative, a fragment, or has one of the schemes. White space and control
 * characters are dropped before the scheme is read, as browsers drop them.
 */
export function isSafeAddress(address: string, schemes?: readonly string[]): boolean;

/** The declarations of a style that set one of the properties, and fetch nothing. The others are dropped. */
export function safeStyle(style: string, names?: readonly string[]): string;
