#!/usr/bin/env python3
"""A long document, most of which isn't laid out: keys have to find their way over the edges of what is.

    web/test/page/long_document.py
"""
import sys

from browser import Results, opened
from speed import CARET, document

BLOCKS = 900
EDGE = 320  # the first block of a group
MOVES = [  # the block and the offset of the caret, where -1 is the end; the key; the block and the offset it goes to
    (EDGE, 0, 'arrow_left', EDGE - 1, -1),
    (EDGE, 0, 'arrow_up', EDGE - 1, 0),
    (EDGE, 0, 'control+arrow_left', EDGE - 1, -1),
    (EDGE - 1, -1, 'arrow_right', EDGE, 0),
    (EDGE - 1, -1, 'arrow_down', EDGE, -1),
    (EDGE, 5, 'control+home', 0, 0),
    (EDGE, 5, 'control+end', BLOCKS - 1, -1),
]

FOCUS = r"""
const { view, selected } = page, texts = view.hosts.root.children.map(block => block.children[0]);
const index = texts.findIndex(text => text.key === selected.focus[0]);
return [index, selected.focus[1], texts[index]?.text.length];
"""

TURNS = r"""
window.turns = 0;
const ask = requestAnimationFrame;
window.requestAnimationFrame = listener => {
  turns += 1;
  return ask(listener);
};
"""
MOST = {'turns': 20, 'LayoutCount': 20, 'RecalcStyleCount': 3}  # with some room for what else goes on
COUNTED = list(MOST)

GROUPS = 'return Array.from(page.view.element.children, group => group.children.length)'
IS_SEEN = r"""
const { top, bottom } = getSelection().getRangeAt(0).getBoundingClientRect();
return top > 0 && bottom < innerHeight;
"""


def moved(page, results):
    """Also where the window was scrolled away from the caret."""
    for block, offset, key, to, at in MOVES:
        for scrolled in ('innerHeight', '0', 'document.documentElement.scrollHeight'):
            page.driver.execute_script(CARET, block, offset)
            page.rest()
            if scrolled != 'innerHeight':
                page.driver.execute_script(f'scrollTo(0, {scrolled})')
            page.driver.execute_async_script('setTimeout(arguments[0], 100)')
            page.press(key)
            page.driver.execute_async_script('setTimeout(arguments[0], 100)')
            index, here, length = page.driver.execute_script(FOCUS)
            found = []
            if (index, here) != (to, length if at < 0 else at):
                found.append(f'the caret is in block {index} at {here}')
            if not page.driver.execute_script(IS_SEEN):
                found.append('the caret is out of sight')
            results.add(f'{key} in block {block}, scrolled to {scrolled}', found, tell=False)


def grouped(page, results):
    """Groups are parted and joined as blocks come and go, and the caret stays."""
    page.driver.execute_script(CARET, EDGE, 5)
    page.keys(['enter', *'new'] * 70)
    page.rest()
    grown, found = page.driver.execute_script(GROUPS), page.faults()
    if sum(grown) != BLOCKS + 70 or max(grown) > 128:
        found.append(f'the groups have {grown}')
    results.add('blocks that come', found)
    page.press('control+a')
    page.press('backspace')
    page.rest()
    results.add('all goes', page.faults())
    page.press('control+z')
    page.rest()
    again, found = page.driver.execute_script(GROUPS), page.faults()
    if sum(again) != sum(grown) or min(again[:-1]) < 32:
        found.append(f'the groups have {again}')
    results.add('all comes back', found)


def counted(page, results):
    """A letter asks for one picture, for which the browser makes one layout and looks up no style. These are counts, as
    times depend on what else the machine does."""
    page.driver.execute_script(CARET, EDGE, 5)
    page.driver.execute_script(TURNS)
    page.driver.execute_cdp_cmd('Performance.enable', {})
    page.type('one', 0.1)
    before = counts(page)
    page.type('a line of letters', 0.05)
    page.rest()
    told = [f'{count} {name} for 17 letters' for name, count in zip(COUNTED, map(int.__sub__, counts(page), before))
            if count > MOST[name]]
    results.add('what a letter has the browser do', told)


def counts(page):
    metrics = page.driver.execute_cdp_cmd('Performance.getMetrics', {})['metrics']
    found = {metric['name']: int(metric['value']) for metric in metrics}
    return [page.driver.execute_script('return turns'), *(found[name] for name in COUNTED[1:])]


def main():
    results = Results()
    with opened() as page:
        page.anew()
        page.act({'load': document(BLOCKS)})
        moved(page, results)
        counted(page, results)
        grouped(page, results)
        return results.end(page)


if __name__ == '__main__':
    sys.exit(main())
