#!/usr/bin/env python3
"""What people do who write every day: each act in a new document, in which the page has to show what the core has.

    web/test/page/everyday_acts.py [WORDS..]

After an act the HTML has to have the words that it tells, and no notice may come. Words choose the acts with one of
them in their names.
"""
import sys

from selenium.webdriver.common.by import By

from browser import Results, opened

# What a keyboard of a phone, a menu or a spelling checker sends, as the page gets it: events, and what they do to the
# text `T` of the page.
EVENTS = r"""
const element = page.view.element, [steps] = arguments;
for (const [name, details, text, caret] of steps) {
  const node = document.createTreeWalker(element, NodeFilter.SHOW_TEXT).nextNode(), { range, data, moved } = details;
  if (moved !== undefined) getSelection().collapse(node, moved);
  const common = { bubbles: true, cancelable: true, data, isComposing: details.isComposing ?? false };
  const [startOffset, endOffset] = range ?? [0, 0], ends = { startContainer: node, endContainer: node };
  const targetRanges = range ? [new StaticRange({ ...ends, startOffset, endOffset })] : [];
  element.dispatchEvent(name.startsWith('composition')
    ? new CompositionEvent(name, common)
    : new InputEvent('beforeinput', { ...common, inputType: name, targetRanges }));
  if (text === undefined) continue;
  node.data = text;
  getSelection().collapse(node, caret);
}
"""


def sent(page, *steps):
    page.driver.execute_script(EVENTS, [list(step) for step in steps])
    page.rest()


def composed(page, moved, start, word, text, caret):
    """A phone's keyboard makes a word anew that is there already, with the caret in it."""
    composing = {'data': word, 'range': [start, text[1]], 'isComposing': True}
    sent(page, ('compositionstart', {'data': 'old', 'moved': moved}),
         ('insertCompositionText', composing, text[0], caret), ('compositionend', {'data': word}))


def key_of_layout(page, key, code, number):
    """A key with Control, as a layout with other letters has it."""
    for kind in ('rawKeyDown', 'keyUp'):
        page.driver.execute_cdp_cmd('Input.dispatchKeyEvent', {
            'type': kind, 'modifiers': 2, 'key': key, 'code': code, 'windowsVirtualKeyCode': number})


def command(page, name, times=1):
    """A command of the browser's own, as a key of another system or a menu sends it."""
    for kind in ['rawKeyDown', 'keyUp'] * times:
        commands = {'commands': [name]} if kind == 'rawKeyDown' else {}
        page.driver.execute_cdp_cmd('Input.dispatchKeyEvent', {'type': kind, 'key': '', 'code': '', **commands})
    page.rest()


def at(page, x, y):
    """Clicks so many pixels from the document's left and top edges."""
    left, top = page.driver.execute_script('const { left, top } = page.view.element.getBoundingClientRect();'
                                           'return [left, top]')
    page.keys([(int(left) + x, int(top) + y)])


def ruled(page):
    page.keys([*'one', 'enter', *'---', 'enter', *'two'])


def table(page, rows, columns, words):
    page.act({'dispatch': 'insert-table', 'payload': [rows, columns, False]})
    for index, word in enumerate(words):
        page.keys([*(['tab'] if index else []), *word])


DEVICES = [
    ('a word that a phone composes is touched and left', lambda page: (
        page.type('say hello'), sent(page, ('compositionstart', {'data': 'hello'}),
                                     ('compositionend', {'data': 'hello'}))),
     '<p><span>say hello</span></p>'),
    ('a letter in the midst of a word that a phone composes', lambda page: (
        page.type('say hello'), composed(page, 6, 4, 'heXllo', ('say heXllo', 9), 7), page.type('Y')),
     '<p><span>say heXYllo</span></p>'),
    ('all of a word that a phone composes goes', lambda page: (
        page.type('say hello'), composed(page, 9, 4, '', ('say ', 9), 4)), '<p><span>say </span></p>'),
    ('a spelling correction', lambda page: (
        page.type('teh end'), sent(page, ('insertReplacementText', {'data': 'the', 'range': [0, 3]}))),
     '<p><span>the end</span></p>'),
    ('two spaces become a full stop', lambda page: (
        page.type('one  '), sent(page, ('insertText', {'data': '. ', 'range': [3, 5]}))), '<p><span>one. </span></p>'),
    ('two lines from a table of phrases', lambda page: page.insert('one\ntwo'),
     '<p><span>one</span></p><p><span>two</span></p>'),
    ('a link from a menu', lambda page: (
        page.type('word'), page.select('word', 0, 'word', 4), sent(page, ('insertLink', {'data': 'https://x.org'}))),
     '<a href="https://x.org"><span>word</span></a>'),
    ('all to the start of the line, and then the break before it', lambda page: (
        page.keys([*'one', 'enter', *'two']), command(page, 'DeleteToBeginningOfLine', 2), page.type('X')),
     '<div><p><span>oneX</span></p></div>'),
    ('all to the end of the paragraph, and then the break behind it', lambda page: (
        page.keys([*'one', 'enter', *'two', 'enter', *'three', *['arrow_up'] * 2, 'home', 'arrow_right']),
        command(page, 'DeleteToEndOfParagraph', 2)), '<div><p><span>otwo</span></p><p><span>three</span></p></div>'),
    ('all to a line break', lambda page: (
        page.keys([*'one', 'shift+enter', *'two', 'arrow_up', 'home']), command(page, 'DeleteToEndOfParagraph')),
     '<div><p><br><span>two</span></p></div>'),
    ('undo and bold on a Cyrillic keyboard', lambda page: (
        page.type('word'), page.press('enter'), key_of_layout(page, 'я', 'KeyZ', 90), page.press('control+a'),
        key_of_layout(page, 'и', 'KeyB', 66)),
     '<div><p><strong class="bold">word</strong></p></div>'),
]

LINKS = [
    ('an address and a space', lambda page: page.type('see https://example.org/a, and (www.x.org) me@x.org now'),
     'see </span><a href="https://example.org/a"><span>https://example.org/a</span></a><span>, and (</span>'
     '<a href="https://www.x.org"><span>www.x.org</span></a><span>) </span>'
     '<a href="mailto:me@x.org"><span>me@x.org</span></a><span> now</span>'),
    ('an address and Enter', lambda page: page.keys([*'https://x.org', 'enter', *'next']),
     '<p><a href="https://x.org"><span>https://x.org</span></a></p><p><span>next</span></p>'),
    ('undo gives back the address', lambda page: page.keys([*'https://x.org ', 'control+z', *'on']),
     '<p><span>https://x.org on</span></p>'),
    ('a link as Markdown has it', lambda page: page.type('a [word](https://x.org) b'),
     '<span>a </span><a href="https://x.org"><span>word</span></a><span> b</span>'),
    ('undo gives back its marks', lambda page: page.keys([*'[word](x.org)', 'control+z', '!']),
     '>[word](x.org)!</span>'),
    ('a link is taken away below it', lambda page: (
        page.type('see https://x.org now'), page.click('a'), page.wait(), page.below_link('button[title^=Remove]')),
     '<p><span>see https://x.org now</span></p>'),
    ('a link is changed below it', lambda page: (
        page.type('see https://x.org now'), page.click('a'), page.wait(), page.below_link('button[title^=Change]'),
        page.keys(['control+a', *'y.org', 'enter']), page.wait()), '<a href="https://y.org"><span>https://x.org<'),
    ('no link in code', lambda page: page.keys(['control+e', *'x https://x.org y']), '<span>x https://x.org y</span>'),
]

KEYS = [
    ('Tab where all of a line is selected', lambda page: page.keys([*'one', 'control+a', 'tab']),
     '<p data-indent="1"><span>one</span></p>'),
    ('Up and Down over a rule', lambda page: (ruled(page), page.keys(['arrow_up', 'A', 'arrow_down', 'B'])),
     '<p><span>oneA</span></p><hr data-lexical-decorator="true"><p><span>twoB</span></p>'),
    ('Left and Right over a rule', lambda page: (
        ruled(page), page.keys(['home', 'arrow_left', 'A', 'arrow_right', 'B'])),
     '<p><span>oneA</span></p><hr data-lexical-decorator="true"><p><span>Btwo</span></p>'),
    ('before a rule that begins the document', lambda page: page.keys(
        [*'---', 'enter', *'two', 'arrow_up', 'A', 'arrow_down', 'home', 'B']),
     '<div><p><span>A</span></p><hr data-lexical-decorator="true"><p><span>Btwo</span></p></div>'),
    ('before a rule that begins a cell', lambda page: (
        table(page, 1, 1, ['---']), page.keys(['enter', *'two', 'home', 'arrow_left', 'A'])),
     '<td><p><span>A</span></p><hr data-lexical-decorator="true"><p><span>two</span></p></td>'),
    ('Up and Down in a table', lambda page: (
        table(page, 3, 2, 'abcdef'), page.keys(['home', 'arrow_up', '1', 'arrow_up', '2', *['arrow_down'] * 2, '3'])),
     '<span>a</span></p></td><td><p><span>b2</span></p></td></tr><tr><td><p><span>c</span></p></td><td><p><span>1d'
     '</span></p></td></tr><tr><td><p><span>e</span></p></td><td><p><span>f3</span>'),
    ('Down out of a table, and up into its first column', lambda page: (
        table(page, 2, 2, 'abcd'), page.keys(['arrow_down', 'X', 'home', 'arrow_up', 'Y'])),
     '<td><p><span>Yc</span></p></td><td><p><span>d</span></p></td></tr></table><p><span>X</span></p>'),
    ('Down from a cell of several lines', lambda page: (
        table(page, 2, 2, ['word ' * 40, 'b', 'c', 'd']), page.keys(['shift+tab'] * 3),
        page.keys([*['arrow_left'] * 6, *['home'] * 2, 'arrow_down', 'X'])), '<p><span>Xc</span></p>'),
    ('Left out of a table, and Right into it', lambda page: (
        table(page, 1, 2, 'ab'), page.keys(['shift+tab', 'home', 'arrow_left', 'X', 'arrow_right', 'Y'])),
     '<p><span>X</span></p><table><tr><td><p><span>Ya</span>'),
    ('cells that Shift and Down select', lambda page: (
        table(page, 2, 2, 'abcd'), page.caret('b'), page.keys(['shift+arrow_down', 'control+b'])),
     '<strong class="bold">b</strong></p></td></tr><tr><td><p><span>c</span></p></td><td><p><strong class="bold">d<'),
    ('Enter at the start of a heading, and of a quote', lambda page: page.keys(
        [*'# One', 'home', 'enter', *'X', 'end', 'enter', *'> said', 'home', 'enter', *'Y']),
     '<div><p><br></p><h1><span>XOne</span></h1><p><br></p><blockquote><span>Ysaid</span></blockquote></div>'),
    ('Delete in an empty paragraph before a heading', lambda page: page.keys(
        ['enter', *'# One', 'control+home', 'delete', 'X']), '<div><h1><span>XOne</span></h1></div>'),
    ('Delete in an empty paragraph before a list', lambda page: page.keys(
        ['enter', *'- One', 'control+home', 'delete', 'X']), '<div><ul><li value="1"><span>XOne</span>'),
    ('an item is checked by keys', lambda page: page.keys([*'[] one', 'control+enter']),
     '<li aria-checked="true" role="checkbox" value="1"><span>one'),
]

MOUSE = [
    ('a click on a rule', lambda page: (ruled(page), page.click('hr'), page.type('X')),
     '<hr data-lexical-decorator="true"><p><span>Xtwo</span></p>'),
    ('a double click behind the last word', lambda page: (
        page.keys([*'one', 'enter', *'two']), page.click_often('p', 2), page.type('X')),
     '<p><span>oneX</span></p><p><span>two</span></p>'),
    ('a click left of the document', lambda page: (
        page.keys([*'one', 'enter', *'two']), at(page, -40, 40), page.type('X')),
     '<p><span>Xone</span></p><p><span>two</span></p>'),
    ('a click right of the document, and far below its end', lambda page: (
        page.keys([*'one', 'enter', *'two']), page.press('home'), at(page, 820, 400), page.type('X')),
     '<p><span>one</span></p><p><span>twoX</span></p>'),
]

NUMBERED = [*'1. a', 'enter', *'b', 'enter', *'c', 'enter', *'d']
BULLETS = [*'- a', 'enter', *'b', 'enter', *'c', 'arrow_up', 'home']

LISTS = [
    ('one item leaves its list, and the numbers go on', lambda page: (
        page.keys(NUMBERED), page.caret('b'), page.button('number')),
     '<li value="1"><span>a</span></li></ol><p><span>b</span></p><ol start="2"><li value="2"><span>c<'),
    ('it is an item again, and the list is whole', lambda page: (
        page.keys(NUMBERED), page.caret('b'), page.button('number'), page.button('number')),
     '<div><ol><li value="1"><span>a</span></li><li value="2"><span>b</span></li><li value="3"><span>c<'),
    ('one undo of that', lambda page: (
        page.keys(NUMBERED), page.caret('b'), page.button('number'), page.button('number'), page.press('control+z')),
     '</ol><p><span>b</span></p><ol start="2">'),
    ('Backspace in an empty item at the end leaves the list', lambda page: page.keys(
        [*'- a', 'enter', 'backspace', *'b']), '<li value="1"><span>a</span></li></ul><p><span>b</span></p></div>'),
    ('and again goes back to the item before', lambda page: page.keys([*'- a', 'enter', *['backspace'] * 2, *'b']),
     '<div><ul><li value="1"><span>ab</span></li></ul></div>'),
    ('Backspace at the start of an item takes its bullet away', lambda page: page.keys(
        [*BULLETS, 'backspace', *'X']),
     '<div><ul><li value="1"><span>a</span></li></ul><p><span>Xb</span></p><ul><li value="1"><span>c</span></li>'),
    ('and again joins it with the item before', lambda page: page.keys([*BULLETS, *['backspace'] * 2, *'X']),
     '<div><ul><li value="1"><span>aXb</span></li><li value="2"><span>c</span></li></ul></div>'),
    ('one undo gives the bullet back', lambda page: page.keys([*BULLETS, 'backspace', 'control+z', *'X']),
     '<div><ul><li value="1"><span>a</span></li><li value="2"><span>Xb</span></li><li value="3"><span>c</span></li>'),
    ('an item below another one goes up first', lambda page: page.keys(
        [*'- a', 'enter', 'tab', *'b', 'enter', *'c', 'home', 'backspace', *'X']),
     '<ul><li value="1"><span>b</span></li></ul></li><li value="2"><span>Xc</span></li></ul></div>'),
    ('and then its bullet goes', lambda page: page.keys(
        [*'- a', 'enter', 'tab', *'b', 'enter', *'c', 'home', *['backspace'] * 2, *'X']),
     '<ul><li value="1"><span>b</span></li></ul></li></ul><p><span>Xc</span></p></div>'),
]

PASTED = [
    ('to-dos of Notion', lambda page: page.paste(html=(
        '<ul>\n<li>a\n<ul>\n<li>b</li>\n</ul>\n</li>\n</ul>\n<ul>\n<li>[ ]  Task</li>\n<li>[x]  Done</li>\n</ul>'
        '<!-- notionvc: 1 -->')),
     '<ul><li value="1"><span>a</span></li><li value="2"><ul><li value="1"><span>b</span></li></ul></li></ul><ul>'
     '<li aria-checked="false" role="checkbox" value="1"><span>Task</span></li>'
     '<li aria-checked="true" role="checkbox" value="2"><span>Done</span></li></ul>'),
]

CARET = 'const { anchor } = page.selected; return [page.view.hosts.ofKey(anchor[0]).text, anchor[1]]'
IS_SEEN = 'const { top, bottom } = getSelection().getRangeAt(0).getBoundingClientRect();' \
          'return top > 40 && bottom < innerHeight'


def reloaded(page, results):
    """The caret is where it was, and in sight, also if it has moved since the last change."""
    page.driver.execute_script('localStorage.clear(); sessionStorage.clear()')
    page.open()
    page.keys([*['enter'] * 60, *'the end'])
    page.wait(0.4)  # the log is written
    page.press('arrow_left', 3)
    page.wait(0.4)
    page.open()
    page.wait()
    found, caret = page.faults(), page.driver.execute_script(CARET)
    if caret != ['the end', 4]:
        found.append(f'the caret is at {caret}')
    if not page.driver.execute_script(IS_SEEN):
        found.append('the caret is out of sight')
    if page.driver.title != 'the end':
        found.append(f'the tab is called {page.driver.title}')
    results.add('the caret after a reload', found + page.notices())


def opened_below(page, results):
    """Below a link with the caret is its address, by which it opens."""
    page.anew()
    page.type('see https://x.org now')
    page.click('a')
    page.wait()
    link = page.driver.find_element(By.CSS_SELECTOR, '.link-bubble > a')
    page.act({'update': []})
    found = page.faults()
    told = [link.is_displayed(), link.get_attribute('href'), link.get_attribute('target'), link.get_attribute('rel')]
    if told != [True, 'https://x.org/', '_blank', 'noopener']:
        found.append(f'below the link is {told}')
    page.press('escape')
    page.wait()
    if link.is_displayed():
        found.append('Escape does not close it')
    results.add('what is below a link', found)


def unmoved(page, results):
    """The window stays where it is if some of what is changed can be seen."""
    page.anew()
    page.keys([*['enter'] * 60, *'end', 'control+home'])
    page.wait()
    before = page.driver.execute_script('return scrollY')
    page.keys(['control+a', 'control+b'])
    page.wait()
    after = page.driver.execute_script('return scrollY')
    results.add('the window as all is made bold', [] if before == after else [f'it went from {before} to {after}'])


def narrow(page, results):
    """Nothing is beside the window of a small phone."""
    page.anew()
    table(page, 2, 3, ['some', 'words'])
    metrics = {'width': 320, 'height': 600, 'deviceScaleFactor': 1, 'mobile': True}
    page.driver.execute_cdp_cmd('Emulation.setDeviceMetricsOverride', metrics)
    page.wait()
    width = page.driver.execute_script('return document.documentElement.scrollWidth')
    page.driver.execute_cdp_cmd('Emulation.clearDeviceMetricsOverride', {})
    results.add('a window of 320 pixels', [] if width == 320 else [f'the page is {width} pixels wide'])


def main():
    chosen = sys.argv[1:]
    results = Results()
    with opened() as page:
        reloaded(page, results)
        for name, do, expected in [*DEVICES, *LINKS, *KEYS, *MOUSE, *LISTS, *PASTED]:
            if chosen and not any(word in name for word in chosen):
                continue
            page.anew()
            do(page)
            page.act({'update': []})  # tells the core where the caret was moved last
            html, found = page.html(), page.faults() + page.notices()
            if expected not in html:
                found.append(f'{expected!r} is not in {html!r}')
            results.add(name, found)
        opened_below(page, results)
        unmoved(page, results)
        narrow(page, results)
        return results.end(page)


if __name__ == '__main__':
    sys.exit(main())
