import type { View } from './dom.js';
import type { Hosts } from './hosts.js';
import type { Selection } from './lines.js';
import type { Operation, ReplyPoint, ReplySelection } from './replies.js';

/** Two places of a page, as the browser's selection has them. */
export interface BrowserRange {
  readonly anchorNode: Node | null;
  readonly anchorOffset: number;
  readonly focusNode: Node | null;
  readonly focusOffset: number;
}

/**
 * What a range of the page selects, as a step `select` takes it, or null where an end of it is outside the view. It is
 * what was meant, forward or backward:
 * - What reaches to the very start of a block, as a triple click does, ends at the end of what is before. That is so if
 *   anything before is selected, and out of a cell of a table only for a whole block.
 * - What begins or ends between blocks begins or ends in the blocks: rules and tables are selected from outside.
 * - What begins in one cell of a table and ends in another, or goes around cells or rows, selects cells.
 *
 * A caret stays where it is. A place inside a line break, a rule or an embed is in front of it at its start, and
 * otherwise behind it. So is one in what isn't of the view.
 */
export function selectionIn(view: View, range: BrowserRange): Selection | null;

/** The place of the page that shows a point, or null where there is none. */
export function placeOf(view: View, point: ReplyPoint): [Node, number] | null;

/**
 * Shows what the core says is selected, in the browser's selection if no other is given. If the browser's says the
 * same, it isn't touched. Where nodes or nothing are selected, or a point isn't in the view, what the browser has
 * selected in the view is deselected.
 */
export function show(view: View, selection: ReplySelection, browser?: globalThis.Selection | null): void;

/**
 * Where a point of the tree before a commit is after it, by the commit's operations. Call it before they are applied. A
 * commit is taken for the smallest change that makes the new text of the old one. A point stays in front of what came
 * in right there. It is null in these cases, and no others:
 * - No host showed the node, with a text or with children as the point asks, and so long, or none shows it after.
 * - The point was behind the start of what changed in its text and before the end. Where the same change may have been
 *   made at several places, as where "aa" got another "a", what changed reaches from the first to the last.
 * - It was behind that start, at the end, and something came in. Or the commit writes other texts too, and what went
 *   may have gone there.
 * - Of the children before the point and those behind it, some have changed sides.
 * - The child before the point went, and something came to between what is left on both sides.
 * - The child before the point stayed, and one that was before it is behind it now.
 * - The node has lost all of its children, and one of them is elsewhere, or its text may be.
 *
 * What no operation shows can't be told: a node that is moved to where it was, or a text put in the place of the same.
 * Where a step `set` writes a text anew, the core leaves the offsets of its selection as they are, but a point is
 * mapped as above.
 */
export function mapPoint(hostsBefore: Hosts | View, ops: readonly Operation[], point: ReplyPoint): ReplyPoint | null;
