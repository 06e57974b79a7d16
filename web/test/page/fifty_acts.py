#!/usr/bin/env python3
"""Drives the page through some fifty acts, and says whether the page shows what the core has.

    web/test/page/fifty_acts.py [--pictures day.png night.png] [--place file:///../web/playground.html]

After each act the document's HTML has to be that of {"show":"view"}, the browser's selection that of
{"show":"selection"}, and the HTML, or the notice that came, has to have the words that the act tells. In these words no
text has its attribute `data-lexical-text`.
"""
import argparse
import sys

from selenium.common.exceptions import WebDriverException

from browser import Results, opened

# ---- what each act is, how it is done, and what the HTML has then; words behind a `!` are those of the notice

BOLD_WORDS = '<strong class="bold">words</strong>'
MARKED = '<mark class="bold italic highlight"><strong>words</strong></mark>'

TYPING = [
    ('a title is typed', lambda page: page.type('Plan'), '<p><span>Plan</span></p>'),
    ('Enter', lambda page: page.press('enter'), '<p><br></p>'),
    ('a second block, and a third', lambda page: (
        page.type('Read the words aloud & slowly'), page.press('enter'), page.type('Third block')),
     'slowly</span></p><p>'),
    ('a line break', lambda page: page.press('shift+enter'), 'block</span><br><br></p>'),
    ('text behind the line break', lambda page: page.type('and more'), '<br><span>and more'),
    ('a block that begins with a tab', lambda page: page.keys(['enter', 'tab']), '>\t</span>'),
    ('accents', lambda page: page.type('Café'), '>Café</span>'),
    ('an astral character', lambda page: page.insert('🧵'), '>Café🧵</span>'),
    ('Backspace takes all of it', lambda page: page.press('backspace'), '>Café</span>'),
    ('a family of three', lambda page: page.insert('👩‍👩‍👧'), '>Café👩‍👩‍👧</span>'),
    ('Backspace takes the family', lambda page: page.press('backspace'), '>Café</span>'),
    ('an arrow key, and a letter there', lambda page: page.keys(['arrow_left', 'n']), '>Cafné</span>'),
    ('undo', lambda page: page.press('control+z'), '>Café</span>'),
    ('redo', lambda page: page.press('control+y'), '>Cafné</span>'),
    ('the word before the caret goes', lambda page: page.press('control+backspace'), '>é</span>'),
    ('Delete, and Backspace over the tab', lambda page: page.keys(['delete', 'backspace']), '<p><br></p></div>'),
    ('Backspace joins two blocks', lambda page: page.press('backspace'), 'and more</span></p></div>'),
    ('deleting over three blocks', lambda page: (page.select('Plan', 2, 'Third', 6), page.press('delete')),
     '<div><p><span>Plblock</span><br>'),
    ('undo brings them back', lambda page: page.press('control+z'), '>Plan</span></p><p>'),
    ('redo and undo by their buttons', lambda page: (page.button('redo'), page.button('undo')), '>Plan</span></p><p>'),
    ('all is selected, and typed over', lambda page: page.keys(['control+a', 'x']),
     '<div><p><span>x</span></p></div>'),
    ('undo brings all back', lambda page: page.press('control+z'), '>Read the words aloud'),
    ('a triple click, and a letter', lambda page: (page.click_often('p', 3), page.type('x')),
     '<div><p><span>x</span></p><p><span>Read'),
    ('undo of that', lambda page: page.press('control+z'), '>Plan</span></p><p>'),
    ('bold in the midst', lambda page: (page.select('words', 0, 'words', 5), page.press('control+b')), BOLD_WORDS),
    ('italic and highlight', lambda page: (page.button('italic'), page.button('highlight')), MARKED),
    ('typing over what is selected', lambda page: page.type('text'), '<strong>text</strong></mark>'),
    ('underline at a caret, and text', lambda page: (page.caret('slowly'), page.keys(['control+u', '!'])),
     '<span class="underline">!</span>'),
    ('a composed accent, and a composed character that Backspace takes', lambda page: (
        page.compose('´', 'é'), page.rest(), page.compose('n', 'ni', '你'), page.press('backspace')), '>!é</span>'),
]

BLOCKS = [
    ('a heading', lambda page: (page.caret('Plan'), page.button('block-heading-1')),
     '<div><h1><span>Plan</span></h1><p>'),
    ('Backspace at its start', lambda page: page.keys(['home', 'backspace']), '<div><p><span>Plan<'),
    ('a heading as Markdown has it', lambda page: page.keys(['#', '#', ' ']), '<div><h2><span>Plan<'),
    ('a quote', lambda page: (page.caret('and more'), page.button('block-quote')), '<blockquote><span>'),
    ('a paragraph again, in the midst', lambda page: page.button('align-center'), '<blockquote data-align="center">'),
    ('as it was', lambda page: (page.button('align-left'), page.button('block-paragraph')),
     'and more</span></p></div>'),
    ('merging where no cells are: refused', lambda page: page.act({'dispatch': 'merge-cells'}), '!selected'),
    ('three lines are pasted', lambda page: (
        page.caret('and more'), page.press('enter'), page.paste('milk\nbread\r\ntea')),
     '<p><span>bread</span></p><p><span>tea</span></p></div>'),
]

LISTS = [
    ('bullets', lambda page: (page.select('milk', 0, 'tea', 3), page.button('bullet')),
     '<ul><li value="1"><span>milk'),
    ('a new item', lambda page: (page.caret('tea'), page.press('enter'), page.type('honey')),
     '<li value="4"><span>honey'),
    ('Tab in an item', lambda page: page.press('tab'), '<ul><li value="1"><span>honey'),
    ('Shift and Tab', lambda page: page.press('shift+tab'), '<li value="4"><span>honey'),
    ('numbers', lambda page: page.button('number'), '<ol><li value="1"><span>milk'),
    ('check marks', lambda page: page.button('check'), '<li aria-checked="false" role="checkbox" value="4">'),
    ('an item is checked by its mark', lambda page: page.click('li', 1, left=14),
     '<li aria-checked="true" role="checkbox" value="2">'),
    ('an empty item ends the list', lambda page: (page.caret('honey'), page.press('enter', 2)),
     '</ul><p><br></p></div>'),
    ('a list that begins at 3', lambda page: page.type('3. three'),
     '<ol start="3"><li value="3"><span>three</span></li></ol></div>'),
    ('two undos give back its mark', lambda page: page.press('control+z', 2), '<p><span>3. </span></p></div>'),
    ('bold and code as Markdown has them', lambda page: page.keys([*['backspace'] * 3, *'a **bold** 2*3* `code`!']),
     '<p><span>a </span><strong class="bold">bold</strong><span> 2*3* </span><code class="code"><span>code</span>'
     '</code><span>!</span></p></div>'),
    ('two undos give back the marks', lambda page: page.press('control+z', 2), '<span> 2*3* `code`</span></p></div>'),
    ('the block is emptied', lambda page: page.keys(['shift+home', 'backspace']), '<p><br></p></div>'),
]

TABLES = [
    ('a table', lambda page: (page.type('Teas'), page.act({'dispatch': 'insert-table', 'payload': [2, 2, True]})),
     '<table><tr><th><p><br></p></th>'),
    ('a paragraph is behind it', lambda page: None, '</table><p><br></p></div>'),
    ('text in its first cell', lambda page: page.type('Sort'), '<th><p><span>Sort</span></p></th>'),
    ('Tab, and text in the next one', lambda page: (page.press('tab'), page.type('Price')),
     '<th><p><span>Price</span></p></th></tr>'),
    ('a row and a column', lambda page: (page.button('row-after'), page.button('column-after')),
     '</th><th><p><br></p></th></tr><tr><th><p><br></p></th><td><p><br></p></td><td><p><br></p></td></tr>'),
    ('cells become one', lambda page: (page.select('Sort', 0, 'Price', 5), page.button('merge-cells')),
     '<th colspan="2"><p><span>Sort</span></p><p><span>Price'),
    ('and many again', lambda page: page.button('unmerge'), 'Price</span></p></th><th><p><br></p></th>'),
    ('a column and a row go', lambda page: (
        page.click('th', 2), page.button('delete-column'), page.click('td'), page.button('delete-row')),
     'Price</span></p></th><th><p><br></p></th></tr><tr><th><p><br></p></th><td><p><br></p></td></tr></table>'),
    ('typing over selected cells empties them', lambda page: (page.select('Sort', 0, 'Price', 5), page.type('X')),
     '<tr><th><p><span>X</span></p></th><th><p><br></p></th></tr>'),
    ('undo of that', lambda page: page.press('control+z'), '>Price</span>'),
    ('Backspace behind it goes into its last cell', lambda page: page.keys(['control+end', 'backspace', 'Y']),
     '<td><p><span>Y</span></p></td></tr></table><p><br></p></div>'),
    ('Delete before it goes into its first cell', lambda page: (page.caret('Teas'), page.keys(['delete', 'Z'])),
     '<p><span>Teas</span></p><table><tr><th><p><span>ZSort'),
    ('an empty block behind it goes', lambda page: page.keys(['control+end', 'enter', 'arrow_up', 'backspace', 'X']),
     '<td><p><span>YX</span></p></td></tr></table><p><br></p></div>'),
]

ALL = [
    ('a word is cut', lambda page: (page.select('Plan', 0, 'Plan', 4), page.press('control+x')), '<div><h2><br></h2>'),
    ('the page is opened anew', lambda page: page.open(), '<div><h2><br></h2>'),
    ('undo of the cut, and what is bold is pasted', lambda page: (
        page.press('control+z'), page.paste_of(page.copied('text', 0, 'text', 4), 'Plan')),
     '<span>Plan</span><mark'),
    ('what an extension puts in is taken back', lambda page: page.driver.execute_script(
        'for (const each of [page.view.element, ...page.view.element.querySelectorAll(".blocks, p")])'
        ' each.append("junk", document.createElement("b"))'),
     '</p></div>'),
    ('all goes', lambda page: page.keys(['control+a', 'delete']), '<div><p><br></p></div>'),
    ('and comes back', lambda page: page.press('control+z'), '</table><p>'),
]


def faults(page, expected):
    """What is wrong after an act."""
    found, html, notices = page.faults(), page.html(), page.notices()
    if expected.startswith('!'):
        if not any(expected[1:] in notice for notice in notices):
            found.append(f'{expected[1:]!r} is not in {notices}')
        return found
    if expected not in html:
        found.append(f'{expected!r} is not in {html!r}')
    return found + notices


def main():
    parser = argparse.ArgumentParser(description='Drives the page through some fifty acts.')
    parser.add_argument('--place', help='the address of the page, if it is not to be served from web/')
    parser.add_argument('--pictures', nargs=2, help='where to put pictures of the page with its list and its table')
    words = parser.parse_args()
    results = Results()
    with opened(words.place) as page:
        for name, do, expected in [*TYPING, *BLOCKS, *LISTS, *TABLES, *ALL]:
            try:
                do(page)
                page.rest()
                found = faults(page, expected)
            except (WebDriverException, LookupError) as error:  # what the act needs isn't there
                found = [str(error).split('\n')[0]]
            results.add(name, found)
            if name == 'a row and a column' and words.pictures:
                for scheme, file in zip(['light', 'dark'], words.pictures):
                    page.picture(scheme, file)
        return results.end(page)


if __name__ == '__main__':
    sys.exit(main())
