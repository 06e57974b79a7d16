#!/usr/bin/env python3
"""How long a key takes, from its event until the page is changed and the caret is put back, in a small document and in
one of 16,000 nodes. That has the layout in it, which the caret asks for, but no painting: beside it stands what the
page's thread does for a key in all. It fails where a key takes too long, as it may be on a busy machine: so `run`
leaves it out.

    web/test/page/speed.py [--keys 300]
"""
import argparse
import random
import sys

from browser import Results, opened

SIZES = {  # paragraphs, each with a text: the most milliseconds at the median, and at the 99th percentile
    'a small document': (10, 1, 4),
    '16,000 nodes': (7990, 4, 10),
}

TIMES = r"""
window.times = [];
let start = 0;
page.view.element.addEventListener('beforeinput', () => { start = performance.now(); }, true);
page.on('settled', () => {
  if (start) times.push(performance.now() - start);
  start = 0;
});
"""

CARET = r"""
const [index, offset] = arguments, block = page.view.element.querySelectorAll('p')[index];
const text = block.firstChild.firstChild;
getSelection().collapse(text, offset < 0 ? text.length : offset);
block.scrollIntoView({ block: 'center' });
"""


def document(paragraphs):
    texts = [f'Paragraph {number} has a few words, as many as a line may have.' for number in range(paragraphs)]
    common = {'direction': None, 'format': '', 'indent': 0, 'version': 1}
    text = {'type': 'text', 'detail': 0, 'format': 0, 'mode': 'normal', 'style': '', 'version': 1}
    blocks = [{**common, 'type': 'paragraph', 'children': [{**text, 'text': words}]} for words in texts]
    return {'root': {**common, 'type': 'root', 'children': blocks}}


def measured(page, paragraphs, keys):
    """Milliseconds of each key, in order, typed at several places; and those of the thread for a key."""
    page.anew()
    page.act({'load': document(paragraphs)})
    page.driver.execute_script(TIMES)
    page.driver.execute_cdp_cmd('Performance.enable', {'timeDomain': 'threadTicks'})
    chance, busy = random.Random(paragraphs), 0
    for _ in range(10):
        page.driver.execute_script(CARET, chance.randrange(paragraphs), 5)
        page.rest()
        before = thread_time(page)
        page.keys([chance.choice('abcdefgh ') for _ in range(keys // 10)], 0.02)
        page.rest()
        busy += thread_time(page) - before
    times = sorted(page.driver.execute_script('return times'))
    return times, 1000 * busy / len(times)


def thread_time(page):
    metrics = page.driver.execute_cdp_cmd('Performance.getMetrics', {})['metrics']
    return next(metric['value'] for metric in metrics if metric['name'] == 'TaskDuration')


def main():
    parser = argparse.ArgumentParser(description='How long a key takes.')
    parser.add_argument('--keys', type=int, default=300)
    words = parser.parse_args()
    results = Results()
    with opened() as page:
        for name, (paragraphs, most_median, most_last) in SIZES.items():
            times, thread = measured(page, paragraphs, words.keys)
            median, last = times[len(times) // 2], times[len(times) * 99 // 100]
            told = (f'{name}: {median:.1f} ms at the median, {last:.1f} at the 99th percentile, of {len(times)} keys; '
                    f'{thread:.1f} of the thread')
            is_slow = median > most_median or last > most_last
            results.add(told, [f'at most {most_median} and {most_last}'] if is_slow else [])
        return results.end(page)


if __name__ == '__main__':
    sys.exit(main())
