// Icons, drawn for this page on a grid of 24: strokes of one width, with round ends, in the color of the text around.

/** What is drawn of each icon, as the data of a path. */
const drawings = {
  'undo': 'M8.5 5 4 9.5 8.5 14M4 9.5h10a5 5 0 0 1 0 10h-4',
  'redo': 'M15.5 5 20 9.5 15.5 14M20 9.5H10a5 5 0 0 0 0 10h4',
  'bold': 'M7 5h5.5a3.5 3.5 0 0 1 0 7H7zM7 12h6.5a3.5 3.5 0 0 1 0 7H7z',
  'italic': 'M10 5h7M7 19h7M13.5 5l-3 14',
  'underline': 'M7 4v7a5 5 0 0 0 10 0V4M6 20h12',
  'strikethrough': 'M4 12h16M16.5 8c-.4-1.9-2-3-4.5-3-2.6 0-4.5 1.3-4.5 3.5 0 1.7 1.2 2.8 3.5 3.5'
    + 'M7.5 16c.4 1.9 2 3 4.5 3 2.6 0 4.5-1.3 4.5-3.5 0-.9-.3-1.6-.9-2.2',
  'code': 'm8.5 7-5 5 5 5M15.5 7l5 5-5 5',
  'highlight': 'm14.5 4.5 5 5-8.5 8.5H6v-5zM11.5 7.5l5 5M4 21h16',
  'subscript': 'm4 6 8 10M12 6 4 16M16 16.5a2 2 0 1 1 3.6 1.2L16 21.5h4',
  'superscript': 'm4 8 8 10M12 8 4 18M16 4.5a2 2 0 1 1 3.6 1.2L16 9.5h4',
  'clear': 'M5 5h13M11.5 5 9 19M14.5 14.5l5 5M19.5 14.5l-5 5',
  'link': 'M10 13.5a4 4 0 0 0 5.7.3l3-3a4 4 0 0 0-5.7-5.7l-1.2 1.2'
    + 'M14 10.5a4 4 0 0 0-5.7-.3l-3 3a4 4 0 0 0 5.7 5.7l1.2-1.2',
  'paragraph': 'M13 5v14M17 5v14M19.5 5h-9a4 4 0 0 0 0 8H13',
  'heading': 'M6 5v14M18 5v14M6 12h12',
  'heading-1': 'M4 6v12M12 6v12M4 12h8M16 10.5 19 8.5V18',
  'heading-2': 'M4 6v12M12 6v12M4 12h8M16 11a2.3 2.3 0 1 1 4.1 1.5L16 18h4.5',
  'heading-3': 'M4 6v12M12 6v12M4 12h8M16.2 9.7a2.2 2.2 0 1 1 1.8 3.3 2.5 2.5 0 1 1-2.2 3.7',
  'quote': 'M10 12V7.5H5V12zM10 12c0 2.5-1.5 4-4 4.5M19 12V7.5h-5V12zM19 12c0 2.5-1.5 4-4 4.5',
  'bullet': 'M10 6h10M10 12h10M10 18h10M4.5 6h1M4.5 12h1M4.5 18h1',
  'number': 'M10 6h10M10 12h10M10 18h10M4 5l1.5-1v5M4 15.5a1.5 1.5 0 1 1 2.7 1L4 20h3',
  'check': 'M12 6h8M12 12h8M12 18h8M4 6l1.5 1.5 3-3M4 12l1.5 1.5 3-3M4 18l1.5 1.5 3-3',
  'align-left': 'M4 5h16M4 9.7h10M4 14.3h16M4 19h10',
  'align-center': 'M4 5h16M7 9.7h10M4 14.3h16M7 19h10',
  'align-right': 'M4 5h16M10 9.7h10M4 14.3h16M10 19h10',
  'align-justify': 'M4 5h16M4 9.7h16M4 14.3h16M4 19h16',
  'indent': 'M4 5h16M11 9.7h9M11 14.3h9M4 19h16M4 9.5 6.5 12 4 14.5',
  'outdent': 'M4 5h16M11 9.7h9M11 14.3h9M4 19h16M6.5 9.5 4 12l2.5 2.5',
  'left-to-right': 'M9 4v10M13 4v10M15 4H8.5a3.2 3.2 0 0 0 0 6.5H9M4 19h16M17 16.5l3 2.5-3 2.5',
  'right-to-left': 'M11 4v10M15 4v10M17 4h-6.5a3.2 3.2 0 0 0 0 6.5h.5M4 19h16M7 16.5 4 19l3 2.5',
  'table': 'M3.5 5h17v14h-17zM3.5 9.7h17M3.5 14.3h17M12 5v14',
  'rule': 'M3 12h18M7 7h2M11 7h2M15 7h2M7 17h2M11 17h2M15 17h2',
  'more': 'M5 12h.5M11.8 12h.5M18.5 12h.5',
  'down': 'm7 10 5 5 5-5',
  'done': 'm5 12.5 4.5 4.5L19 7.5',
  'close': 'm6 6 12 12M18 6 6 18',
  'open': 'M14 4h6v6M20 4l-9 9M18 14v6H4V6h6',
  'unlink': 'M13 5.5a4 4 0 0 1 5.7 5.7l-2 2M11 18.5a4 4 0 0 1-5.7-5.7l2-2M4 4l16 16',
  'select-all': 'M4 7V4h3M17 4h3v3M20 17v3h-3M7 20H4v-3M8 9h8M8 12h8M8 15h5',
  'row-before': 'M4 13h16v7H4zM12 13v7M12 3v6M9 6h6',
  'row-after': 'M4 4h16v7H4zM12 4v7M12 15v6M9 18h6',
  'column-before': 'M13 4h7v16h-7zM13 12h7M3 12h6M6 9v6',
  'column-after': 'M4 4h7v16H4zM4 12h7M15 12h6M18 9v6',
  'row-away': 'M3.5 8h17v8h-17zM10 10l4 4M14 10l-4 4',
  'column-away': 'M8 3.5h8v17H8zM10 10l4 4M14 10l-4 4',
  'merge': 'M3.5 6h17v12h-17zM6 12h4M8 10l2 2-2 2M18 12h-4M16 10l-2 2 2 2',
  'unmerge': 'M3.5 6h17v12h-17zM12 6v12M9 10l-2.5 2L9 14M15 10l2.5 2-2.5 2',
  'header-row': 'M3.5 5h17v14h-17zM3.5 10h17M8 5l-4.5 4.5M13 5l-5 5M18 5l-5 5M20.5 7.5 18 10',
  'header-column': 'M4 3.5h16v17H4zM10 3.5v17M10 6l-6 5M10 11l-6 5M10 16l-5 4.5',
  'table-away': 'M5 7h14M9.5 7V4.5h5V7M6.5 7l.8 12.5h9.4L17.5 7M10.5 10.5v5.5M13.5 10.5v5.5',
};

/** @typedef {keyof typeof drawings} Name */

const namespace = 'http://www.w3.org/2000/svg';

/**
 * An icon, which says nothing to a screen reader: what it stands in has a label.
 * @param {Name} name
 * @returns {SVGElement}
 */
export function icon(name) {
  const drawn = document.createElementNS(namespace, 'svg');
  const path = document.createElementNS(namespace, 'path');
  for (const [attribute, value] of Object.entries({ class: 'icon', viewBox: '0 0 24 24', 'aria-hidden': 'true' })) {
    drawn.setAttribute(attribute, value);
  }
  path.setAttribute('d', drawings[name]);
  drawn.append(path);
  return drawn;
}
