"""The page in headless Chromium: what a person does there, and what the page and the core say after it."""
import contextlib
import functools
import http.server
import json
import pathlib
import threading
import time

from selenium import webdriver
from selenium.webdriver.common.action_chains import ActionChains
from selenium.webdriver.common.by import By
from selenium.webdriver.common.keys import Keys

from scripts import CLOCK, COPY, FAULTS, HTML, NOTICES, PASTE, SELECT

WEB = pathlib.Path(__file__).resolve().parents[2]


class Quiet(http.server.SimpleHTTPRequestHandler):
    protocol_version = 'HTTP/1.1'
    extensions_map = {**http.server.SimpleHTTPRequestHandler.extensions_map,
                      '.js': 'text/javascript', '.wasm': 'application/wasm'}

    def log_message(self, *_):
        pass


def served():
    """Serves web/ to this machine: the address."""
    handler = functools.partial(Quiet, directory=str(WEB))
    server = http.server.ThreadingHTTPServer(('127.0.0.1', 0), handler)
    threading.Thread(target=server.serve_forever, daemon=True).start()
    return f'http://127.0.0.1:{server.server_port}/'


class Page:
    """A page in a browser of its own."""

    def __init__(self, place=None, clock=False):
        options = webdriver.ChromeOptions()
        for word in ('--headless=new', '--disable-gpu', '--no-sandbox'):  # the last is for runs as root
            options.add_argument(word)
        options.set_capability('goog:loggingPrefs', {'browser': 'ALL'})
        self.driver = webdriver.Chrome(options=options)
        self.driver.set_window_size(1000, 800)
        self.driver.set_script_timeout(60)
        self.place = place or served()
        if clock:
            self.driver.execute_cdp_cmd('Page.addScriptToEvaluateOnNewDocument', {'source': CLOCK})
        self.open()

    def open(self):
        self.driver.get(self.place)
        self.ready()

    def ready(self):
        """Waits until one can type."""
        end = time.monotonic() + 60
        while not self.driver.execute_script('return Boolean(window.page?.view)'):  # an element has the id, too
            messages = self.messages()
            if messages or time.monotonic() > end:
                raise TimeoutError(f'the page does not open: {messages}')
            time.sleep(0.02)
        self.driver.execute_script(NOTICES)

    def anew(self):
        """A page with nothing in it that was kept."""
        self.driver.execute_script('localStorage.clear(); sessionStorage.clear();'
                                   'Object.defineProperty(Storage.prototype, "setItem", { value() {} })')
        self.open()

    def close(self):
        self.driver.quit()

    def messages(self):
        return [entry['message'] for entry in self.driver.get_log('browser') if entry['level'] == 'SEVERE']

    def ask(self, line):
        return self.driver.execute_async_script('page.ask(arguments[0]).then(arguments[1])', line)

    def rest(self):
        """Waits until all that was done is answered and drawn."""
        self.ask({'show': 'selection'})

    def wait(self, seconds=0.15):
        """Waits for frames and timers of the page."""
        self.driver.execute_async_script('setTimeout(arguments[1], arguments[0])', seconds * 1000)

    def html(self):
        return self.driver.execute_script(HTML)

    def text(self):
        """The text of each block."""
        return self.driver.execute_script(
            'return [...page.view.element.querySelectorAll("p, h1, h2, h3, blockquote, li")]'
            '.filter(block => !block.querySelector("p, li")).map(block => block.textContent)')

    def notices(self):
        """What was said since this was asked last."""
        return self.driver.execute_script('return notices.splice(0)')

    def faults(self):
        return self.driver.execute_async_script(FAULTS)

    # What a person does

    def keys(self, keys, pause=0.0):
        """Chords such as `control+z`, names such as `enter`, or texts, with so many seconds after each key."""
        chain = ActionChains(self.driver, duration=0)
        for key in keys:
            self.add(chain, key, pause)
        chain.perform()

    def add(self, chain, key, pause=0.0):
        if isinstance(key, tuple):
            chain.w3c_actions.pointer_action.move_to_location(*key)
            chain.w3c_actions.key_action.pause()
            chain.click()
            chain.pause(pause)
            return
        *held, last = key.split('+') if len(key) > 1 and '+' in key else [key]
        for word in held:
            chain.key_down(getattr(Keys, word.upper()))
        for letter in [getattr(Keys, last.upper())] if len(last) > 1 else [last]:
            chain.key_down(letter).key_up(letter)
        for word in held:
            chain.key_up(getattr(Keys, word.upper()))
        if pause:
            chain.pause(pause)

    def type(self, text, pause=0.0):
        self.keys(list(text), pause)

    def press(self, chord, times=1):
        self.keys([chord] * times)

    def select(self, start_words, start, end_words, end):
        self.driver.execute_script(SELECT, start_words, start, end_words, end)

    def caret(self, words):
        """Puts the caret behind these words."""
        self.select(words, len(words), words, len(words))

    def insert(self, text):
        """Text without a key press, as from a table of emoji."""
        self.driver.execute_cdp_cmd('Input.insertText', {'text': text})

    def compose(self, *stages):
        """What an input method shows on the way, and at last inserts."""
        for stage in stages:
            words = {'text': stage, 'selectionStart': len(stage), 'selectionEnd': len(stage)}
            self.driver.execute_cdp_cmd('Input.imeSetComposition', words)
        self.driver.execute_cdp_cmd('Input.insertText', {'text': stages[-1]})

    def paste(self, text='', **types):
        """Pastes a text, and what other types have: `html='<b>a</b>'`."""
        others = {f'text/{name}': data for name, data in types.items()}
        self.driver.execute_script(PASTE, {'text/plain': text, **others})
        self.rest()

    def copied(self, *selected):
        """Copies a selection: what the clipboard gets, by types."""
        if selected:
            self.select(*selected)
        return self.driver.execute_script(COPY)

    def click(self, selector, index=0, left=None):
        """Clicks into an element of the document, or so far left of its left edge."""
        element = self.driver.find_elements(By.CSS_SELECTOR, f'#page {selector}')[index]
        chain = ActionChains(self.driver, duration=0)
        if left is None:
            chain.click(element)
        else:
            chain.move_to_element_with_offset(element, -int(element.size['width'] / 2) - left, 0).click()
        chain.perform()


    def click_often(self, selector, times):
        element = self.driver.find_element(By.CSS_SELECTOR, f'#page {selector}')
        chain = ActionChains(self.driver, duration=0).move_to_element(element)
        for _ in range(times):
            chain.click()
        chain.perform()

    def button(self, name):
        """Presses what has the command in the bars or in a menu of theirs."""
        found = self.driver.find_elements(By.CSS_SELECTOR, f'[data-command="{name}"]')
        seen = [button for button in found if button.is_displayed()]
        if seen:
            seen[0].click()
        else:
            self.driver.execute_script('arguments[0].click()', found[0])
        self.rest()

    def picture(self, scheme, file):
        """A picture by day or by night: `light` or `dark`."""
        feature = {'name': 'prefers-color-scheme', 'value': scheme}
        self.driver.execute_cdp_cmd('Emulation.setEmulatedMedia', {'features': [feature]})
        self.driver.save_screenshot(file)

    def below_link(self, selector):
        """Presses what is shown below the link with the caret."""
        self.driver.find_element(By.CSS_SELECTOR, f'.link-bubble > {selector}').click()
        self.wait()

    def act(self, line):
        return self.driver.execute_async_script('page.act(arguments[0]).then(arguments[1])', line)

    def paste_of(self, copied, behind):
        """Pastes what the clipboard got behind some words."""
        self.caret(behind)
        self.driver.execute_script(PASTE, copied)
        self.rest()


@contextlib.contextmanager
def opened(*words, **options):
    page = Page(*words, **options)
    try:
        yield page
    finally:
        page.close()


class Results:
    """Counts what passed, and prints what failed."""

    def __init__(self):
        self.passed = self.failed = 0

    def add(self, name, found, tell=True):
        self.failed += bool(found)
        self.passed += not found
        if tell or found:
            print(f'{"FAILED" if found else "ok"}: {name}', *found, sep='\n    ', flush=True)

    def end(self, page=None):
        """The status of the program."""
        if page:
            self.add('no error is in the console', page.messages(), tell=False)
        print(f'{self.passed} passed, {self.failed} failed')
        return 1 if self.failed else 0


def json_of(value):
    return json.dumps(value, ensure_ascii=False, sort_keys=True)
