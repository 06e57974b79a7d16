#!/usr/bin/env python3
"""Types as people do, without waiting for the page: some sessions whose outcome is known, and random ones.

    web/test/page/typing_acts.py [--sessions 2] [--acts 60] [--seed 1] [--paces 10,30,90]

A random session is done so often: once with a rest after each act, and once at each pace. Each time the page has to
show what the core has, and the document has to be the same. The page's clock goes on by keys and clicks alone, so that
the history joins the same typing at any pace.
"""
import argparse
import random
import sys

from browser import Results, json_of, opened

# What is typed, and the text of each block then.
KNOWN = [
    ('an arrow between', [*'hello', 'arrow_left', 'X'], ['hellXo']),
    ('Home and End', [*'bcd', 'home', 'a', 'end', 'e'], ['abcde']),
    ('Enter, and an arrow up', [*'same', 'enter', *'same', 'arrow_up', '!'], ['same!', 'same']),
    ('what is selected by keys', [*'abcd', *['shift+arrow_left'] * 2, 'X', 'arrow_left', 'Y'], ['abYX']),
    ('words that go', [*'one two', 'control+backspace', *'three', 'control+arrow_left', '!'], ['one !three']),
    ('all is selected', [*'one', 'enter', *'two', 'control+a', 'x', 'y'], ['xy']),
    ('undo, redo and undo', [*'abc', 'enter', *'def', *['control+z'] * 2, 'control+y', 'X'], ['abc', 'X']),
    ('Backspace over a break', [*'ab', 'enter', *'cd', 'home', 'backspace', 'X'], ['abXcd']),
    ('Delete over a break', [*'ab', 'enter', *'cd', 'arrow_up', 'end', 'delete', 'X'], ['abXcd']),
    ('a tab', [*'a', 'tab', *'b'], ['a\tb']),
    ('Enter in the midst', [*'abcd', *['arrow_left'] * 2, 'enter', 'X'], ['ab', 'Xcd']),
    ('items, a level down and up', [*'- one', 'enter', *'two', 'tab', 'X', 'enter', 'shift+tab', *'three'],
     ['one', 'twoX', 'three']),
    ('marks around words', [*'a **b** *c* `d`~~e~~ ~~f~~g'], ['a b c de fg']),
    ('marks that come back', [*'*one*', 'control+z', *' two*', 'control+z'], ['*one*']),
    ('a list that begins at 12', [*'12. one', 'enter', *'two'], ['one', 'two']),
    ('a heading, and a paragraph behind it', [*'## Head', 'enter', *'text', 'arrow_up', 'end', '!'], ['Head!', 'text']),
]

KEYS = {
    'arrow_left': 6, 'arrow_right': 4, 'arrow_up': 3, 'arrow_down': 3, 'home': 2, 'end': 2, 'enter': 7, 'backspace': 7,
    'delete': 3, 'tab': 2, 'shift+tab': 1, 'shift+enter': 1, 'shift+arrow_left': 4, 'shift+arrow_up': 1,
    'shift+arrow_down': 1, 'control+z': 4, 'control+y': 3, 'control+b': 2, 'control+i': 1, 'control+backspace': 2,
    'control+a': 0.3, 'click': 3, 'item': 1, 'heading': 1, 'word': 45,
}


# What is there as every second random session begins.
PARTS = '''<h2>Title</h2><p>One <a href="https://example.org/">link</a> and <b>bold</b>.</p>
<ul><li>one</li><li>two</li></ul>
<table><tr><th>a</th><th>b</th></tr><tr><td>c</td><td>d</td></tr></table><blockquote>said</blockquote><p>end</p>'''


def session(chance, acts, area):
    """Acts by chance: mostly words, letter by letter."""
    keys = []
    left, top, width, height = area
    while len(keys) < acts:
        [key] = chance.choices(list(KEYS), KEYS.values())
        if key == 'word':
            keys += [*(chance.choice('abcdefgh') for _ in range(chance.randint(1, 6))), ' ']
        elif key == 'click':
            keys.append((left + chance.randrange(width), top + chance.randrange(height)))
        elif key in ('item', 'heading'):
            keys += ['enter', *{'item': ['- ', '1. ', '[] '], 'heading': ['# ', '## ', '> ']}[key][chance.randrange(3)]]
        else:
            keys.append(key)
    return keys[:acts]


def typed(page, keys, pause, rests=False, html=None):
    """Has them typed in a new document, or behind some HTML: what the core has then, and what is wrong."""
    page.anew()
    if html:
        page.paste(html=html)
    for start in range(0, len(keys), 1 if rests else 50):
        if rests:
            page.keys(keys[start:start + 1])
            page.rest()
        else:
            page.keys(keys[start:start + 50], pause)
    page.act({'update': []})  # tells the core where the caret was moved last
    shown = [page.ask({'show': what}) for what in ('state', 'selection', 'history')]
    return [json_of(reply) for reply in shown], page.faults()


def differences(shown, expected):
    return [f'at this pace  {here}\n    with rests    {there}' for here, there in zip(shown, expected) if here != there]


def main():
    parser = argparse.ArgumentParser(description='Types as people do, without waiting for the page.')
    parser.add_argument('--sessions', type=int, default=2, help='how many random ones')
    parser.add_argument('--acts', type=int, default=60, help='of each')
    parser.add_argument('--seed', type=int, default=1)
    parser.add_argument('--paces', default='10,30,90', help='milliseconds a key')
    words = parser.parse_args()
    paces = [int(pace) for pace in words.paces.split(',')]
    results = Results()
    with opened(clock=True) as page:
        for number, (name, keys, expected) in enumerate(KNOWN):
            pace = paces[number % len(paces)]
            _, found = typed(page, keys, pace / 1000)
            text = page.text()
            if text != expected:
                found.append(f'the blocks are {text}, and should be {expected}')
            results.add(f'{name}, at {pace} ms a key', found)
        area = page.driver.execute_script('const { x, y, width } = page.view.element.getBoundingClientRect();'
                                          'return [Math.ceil(x + 8), Math.ceil(y + 8), Math.floor(width - 16), 200]')
        for seed in range(words.seed, words.seed + words.sessions):
            keys = session(random.Random(seed), words.acts, area)
            html = PARTS if seed % 2 == 0 else None
            expected, found = typed(page, keys, 0, rests=True, html=html)
            results.add(f'session {seed} with rests', found)
            for pace in paces:
                shown, found = typed(page, keys, pace / 1000, html=html)
                found += differences(shown, expected)
                results.add(f'session {seed} at {pace} ms a key', found)
        return results.end(page)


if __name__ == '__main__':
    sys.exit(main())
