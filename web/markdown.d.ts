import type { Document, Slice } from './replies.js';

/**
 * The document of a text in Markdown, for a line `load`, and in `lost` what it has no place for, each told once. It
 * reads CommonMark, with GitHub's check lists, tables and strikethrough. HTML stays text, and links and images whose
 * addresses aren't safe become their text. It needs `markdown-it`: without it, and for a text that makes more than a
 * document may have, it throws a `ContentError`.
 */
export function documentFromMarkdown(text: string): Promise<{ document: Document; lost: string[] }>;

/**
 * The Markdown of a document or a slice, and in `lost` what Markdown has no form for, each told once. It needs no
 * parser. What isn't a document throws a `ContentError`.
 */
export function markdownFromDocument(document: Document | Slice): { markdown: string; lost: string[] };
