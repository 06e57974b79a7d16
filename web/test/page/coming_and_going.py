#!/usr/bin/env python3
"""What is pasted, copied, kept and opened from the disk: nothing may be lost on the way.

    web/test/page/coming_and_going.py
"""
import json
import re
import sys

from selenium.webdriver.common.by import By

from browser import WEB, Results, json_of, opened

PARTS = {'state', 'history'}


def parts(page):
    return {part: json_of(page.ask({'show': part})) for part in sorted(PARTS)}


def words_of(node):
    """All text below a node of a document, without spaces: where blocks end isn't compared."""
    inside = ''.join(words_of(child) for child in node.get('children', node.get('nodes', [])))
    return re.sub(r'\s', '', node.get('text', '') + inside)


def pasted_samples(page, results):
    """What other programs put on a clipboard, as web/test/samples has it."""
    for file in sorted((WEB / 'test' / 'samples').glob('*.html')):
        page.anew()
        html = file.read_text()
        page.paste('this is never read', html=html)
        notices = page.notices()  # a picture may be left out, if that is told
        found = page.faults() + [said for said in notices if '<img' not in html or 'Pictures' not in said]
        expected = words_of(json.loads(file.with_suffix('.json').read_text()))
        here = words_of(page.ask({'show': 'state'})['state']['root'])
        if here != expected:
            found.append(f'the page has {here!r}\n    and should have {expected!r}')
        page.press('control+z')
        if words_of(page.ask({'show': 'state'})['state']['root']):
            found.append('undo does not take it back')
        results.add(f'pasting {file.name}', found + page.faults())


def written(page):
    """Something of everything."""
    page.type('# A page')
    page.press('enter')
    page.type('with words')
    page.select('words', 0, 'words', 5)
    page.press('control+b')
    page.caret('words')
    page.press('enter')
    page.type('- one')
    page.press('enter')
    page.type('two')
    page.press('tab')
    page.press('enter', 3)
    page.act({'dispatch': 'insert-table', 'payload': [2, 2, True]})
    page.type('cell')


def copied(page, results):
    page.anew()
    written(page)
    page.press('control+a')
    types = page.copied()
    html = types.get('text/html', '')
    found = [f'{part!r} is not in {html!r}' for part in ('<h1', '<strong', '<ul', '<table') if part not in html]
    if 'with words' not in types.get('text/plain', ''):
        found.append(f'the plain text is {types.get("text/plain")!r}')
    before = page.html()
    page.keys(['control+x'])
    page.rest()
    if 'words' in page.html():
        found.append(f'what is cut is still there: {page.html()}')
    page.press('control+v')
    page.rest()
    for part in ('<h1', 'class="bold"', '<ul', '<table'):
        if part not in page.html():
            found.append(f'{part!r} is not in what was pasted: {page.html()}\n    before {before}')
    results.add('copied, cut and pasted', found + page.faults() + page.notices())


def reloaded(page, results):
    page.driver.execute_script('localStorage.clear()')
    page.anew()
    written(page)
    page.rest()
    before = parts(page)
    page.open()
    found = differences(before, parts(page)) + page.faults()
    page.press('control+z', 3)
    page.rest()
    undone = parts(page)
    if undone['state'] == before['state']:
        found.append('undo does nothing after it')
    page.open()
    found += differences(undone, parts(page))
    page.press('control+y', 3)
    page.rest()
    found += differences(before, parts(page))
    results.add('opened anew, with its history', found + page.faults() + page.notices())


def differences(before, after):
    changed = [part for part in before if before[part] != after[part]]
    return [f'the {part} was  {before[part]}\n    and is  {after[part]}' for part in changed]


def two_tabs(page, results):
    """What is written in one tab isn't lost by what is written in another."""
    page.anew()
    page.type('first')
    page.rest()
    first = page.driver.current_window_handle
    page.driver.switch_to.new_window('tab')
    page.open()
    page.type('second')
    page.rest()
    second = page.driver.current_window_handle
    found, texts = [], {}
    for tab in (first, second):
        page.driver.switch_to.window(tab)
        page.type(' more')
        page.rest()
        texts[tab] = page.text()
        found += page.faults()
    for tab in (first, second):
        page.driver.switch_to.window(tab)
        page.open()
        if page.text() != texts[tab]:
            found.append(f'the tab had {texts[tab]}, and after it is opened anew {page.text()}')
    page.driver.switch_to.window(second)
    page.driver.close()
    page.driver.switch_to.window(first)
    results.add('two tabs', found)


def looked_into(page, results):
    """The core at work, opened by its button, tells of what is typed."""
    page.anew()
    page.driver.find_element(By.CLASS_NAME, 'inspector-button').click()
    page.type('seen')
    page.rest()
    panel = page.driver.find_element(By.CLASS_NAME, 'inspector').text
    wanted = ('text "seen"', 'caret at 4', 'insert-text')
    found = [f'{word!r} is not in {panel!r}' for word in wanted if word not in panel]
    results.add('the core at work', found + page.faults())


def main():
    results = Results()
    with opened() as page:
        pasted_samples(page, results)
        copied(page, results)
        reloaded(page, results)
        looked_into(page, results)
        two_tabs(page, results)
        status = results.end(page)
    results = Results()
    with opened(f'file://{WEB}/playground.html') as page:  # from the disk, all in one file
        copied(page, results)
        reloaded(page, results)
        return results.end(page) or status


if __name__ == '__main__':
    sys.exit(main())
