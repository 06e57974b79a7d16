#!/usr/bin/env python3
"""Two people in one document, each in headless Chromium: what one types the other sees, also where both type at once.

It takes Chromium with its driver, and Python's selenium. Without them the status is 2.
"""
import json
import pathlib
import shutil
import signal
import subprocess
import sys
import tempfile
import threading
import time
from collections.abc import Callable

SERVICE = pathlib.Path(__file__).resolve().parents[1]
sys.path.insert(0, str(SERVICE.parent / "web/test/page"))

try:
    from browser import Page, Results  # type: ignore[import]
except ImportError:
    print("two browsers: there is no selenium")
    sys.exit(2)
if not (shutil.which("chromium") and shutil.which("chromedriver")):
    print("two browsers: there is no chromium, or no chromedriver")
    sys.exit(2)

SECONDS = 30.0  # until something has to be seen
HOLD = """
const sent = window.fetch, held = new Promise(resolve => { window.release = () => { window.fetch = sent; resolve(); }; });
window.fetch = async (...words) => { await held; return sent(...words); };
"""
RELEASE = "release()"
TAGS = """
return [...page.view.element.children].map(block => `${block.localName}: ${block.textContent}`);
"""
SAVE = """
const [kind, done] = arguments, made = URL.createObjectURL;
HTMLAnchorElement.prototype.click = () => {};
URL.createObjectURL = blob => { URL.createObjectURL = made; blob.text().then(done); return 'data:,'; };
document.querySelector(`[data-command=${kind}]`).click();
"""


OPEN = """
const [name, text] = arguments, { click } = HTMLInputElement.prototype;
HTMLInputElement.prototype.click = function () {
  HTMLInputElement.prototype.click = click;
  const chosen = new DataTransfer();
  chosen.items.add(new File([text], name));
  this.files = chosen.files;
  this.dispatchEvent(new Event('change'));
};
document.querySelector('[data-command=open]').click();
"""


class SharedPage(Page):  # type: ignore[misc]
    """A page of the service. Statuses that the protocol knows are no errors, though the console tells of them."""

    def messages(self) -> list[str]:
        """Errors in the console."""
        errors: list[str] = super().messages()
        return [it for it in errors if "status of 404" not in it and "status of 409" not in it]

    def rest(self) -> None:
        """Waits until all that was done is answered and drawn."""
        ends = time.monotonic() + SECONDS
        while self.driver.execute_script("return page.isBusy") and time.monotonic() < ends:
            time.sleep(0.02)

    def blocks(self) -> object:
        """Each block with its tag."""
        return self.driver.execute_script(TAGS)

    def saved(self, kind: str) -> str:
        """What is in the file that is saved."""
        return str(self.driver.execute_async_script(SAVE, kind))

    def open_file(self, name: str, text: str) -> None:
        """Opens a file of that name."""
        self.driver.execute_script(OPEN, name, text)


def begun(folder: str) -> tuple["subprocess.Popen[bytes]", str]:
    """A worker, and its address."""
    worker = subprocess.Popen([str(SERVICE / "run"), "--core", "--port", "0", "--file", f"{folder}/log.sqlite"],
                              stdout=subprocess.DEVNULL, stderr=subprocess.PIPE)
    assert worker.stderr
    for line in worker.stderr:
        told = json.loads(line)
        if told["event"] == "listening":
            threading.Thread(target=worker.stderr.read, daemon=True).start()
            return worker, told["address"]
    raise RuntimeError("the worker has ended")


def seen(what: Callable[[], object], expected: object) -> list[str]:
    """What is wrong, if something isn't as expected in time."""
    ends = time.monotonic() + SECONDS
    while (found := what()) != expected:
        if time.monotonic() > ends:
            return [f"there is     {found}", f"there should be {expected}"]
        time.sleep(0.05)
    return []


def both(*acts: Callable[[], object]) -> None:
    """Does things at once."""
    threads = [threading.Thread(target=act) for act in acts]
    for thread in threads:
        thread.start()
    for thread in threads:
        thread.join()


def work(ann: Page, ben: Page, results: Results) -> None:
    """What the two do."""
    ann.type("Hello")
    results.add("what one types the other sees", seen(ben.text, ["Hello"]))
    ben.caret("Hello")
    ben.type(" world")
    results.add("and the other way round", seen(ann.text, ["Hello world"]))
    ann.select("Hello", 0, "Hello", 0)
    ben.caret("world")
    both(lambda: ann.type("abcde", 0.05), lambda: ben.type("vwxyz", 0.05))
    for name, page in (("one", ann), ("the other", ben)):
        results.add(f"both typed at once in one text: {name}", seen(page.text, ["abcdeHello worldvwxyz"]))
    ben.keys(["enter", "!"])
    results.add("a new paragraph", seen(ann.text, ["abcdeHello worldvwxyz", "!"]))
    ann.press("control+z")
    results.add("undo undoes what was done last, by whomever", seen(ben.text, ["abcdeHello worldvwxyz", ""]))
    mapped(ann, ben, results)
    refused(ann, ben, results)


def mapped(ann: Page, ben: Page, results: Results) -> None:
    """A letter is held back, and what comes between moves its place."""
    ann.caret("world")
    ann.driver.execute_script(HOLD)
    ann.type("1")
    time.sleep(0.5)
    ben.select("abcde", 0, "abcde", 5)
    ben.press("delete")
    results.add("a text goes before the place", seen(ann.text, ["Hello worldvwxyz", ""]))
    ann.driver.execute_script(RELEASE)
    results.add("the letter is where it was meant", seen(ben.text, ["Hello world1vwxyz", ""]))


def refused(ann: Page, ben: Page, results: Results) -> None:
    """A letter is held back, and its place goes."""
    ann.open()
    results.add("a page that comes later has all", seen(ann.text, ["Hello world1vwxyz", ""]))
    ann.notices()
    ann.select("world", 2, "world", 2)
    ann.driver.execute_script(HOLD)
    ann.type("2")
    time.sleep(0.5)
    ben.select("Hello", 3, "world", 5)
    ben.press("delete")
    results.add("the place goes", seen(ann.text, ["Hel1vwxyz", ""]))
    ann.driver.execute_script(RELEASE)
    results.add("the letter is refused, and that is said",
                seen(lambda: any("Somebody else" in notice for notice in ann.notices()), True))
    results.add("nothing of it is done", seen(ben.text, ["Hel1vwxyz", ""]))


def marked(ann: SharedPage, ben: SharedPage, results: Results) -> None:
    """Markdown's marks become what they stand for, however fast they are typed, and while somebody else types."""
    ann.type("## Plan")
    ann.keys(["enter"])
    ann.type("milk **and bread** too")
    ann.keys(["enter", "-", "-", "-", "enter"])
    results.add("marks that are typed without a pause",
                seen(ben.blocks, ["h2: Plan", "p: milk and bread too", "hr: ", "p: "]))
    results.add("a format", seen(lambda: "<strong" in ben.html(), True))
    ben.caret("Plan")
    both(lambda: ann.type("> said", 0.05), lambda: ben.type("ning", 0.05))
    for name, page in (("one", ann), ("the other", ben)):
        results.add(f"a mark while somebody else types: {name}",
                    seen(page.blocks, ["h2: Planning", "p: milk and bread too", "hr: ", "blockquote: said"]))


def pasted(ann: SharedPage, ben: SharedPage, results: Results) -> None:
    """What other programs copy has its form, and takes the place of what was selected. What was behind goes on below."""
    ben.select("milk", 0, "milk", 4)
    ben.paste(text="no", html="<p>one <b>two</b></p><ul><li>three</li></ul>")
    both_see = "|p: one two|ul: three|p:  and bread too|"
    for name, page in (("one", ann), ("the other", ben)):
        results.add(f"rich text is pasted: {name}",
                    seen(lambda page=page: both_see in "|".join(page.blocks()), True))  # type: ignore[misc]


def kept(ann: SharedPage, results: Results) -> None:
    """What there is can be saved, in three forms."""
    document = json.loads(ann.saved("json"))
    found = [block["type"] for block in document["root"]["children"]]
    results.add("saved as JSON", [] if found[:3] == ["heading", "paragraph", "list"] else [str(found)])
    for kind, part in (("html", "<h2>Planning</h2>"), ("md", "## Planning\n\none **two**\n\n- three")):
        text = ann.saved(kind)
        results.add(f"saved as {kind}", [] if part in text else [text])


def opened(ann: SharedPage, ben: SharedPage, results: Results) -> None:
    """A file that one opens takes the place of what both had, and undo brings that back."""
    before, document = ann.blocks(), ann.saved("json")
    pages = (("one", ann), ("the other", ben))
    for file, text, found in (("list.html", "<h1>List</h1><p>one <b>two</b></p>", ["h1: List", "p: one two"]),
                              ("plan.json", document, before)):
        ann.open_file(file, text)
        for name, page in pages:
            results.add(f"{file} is opened: {name}", seen(page.blocks, found))
        results.add("that is said", seen(lambda: any("is open" in it for it in ann.notices()), True))
    ben.caret("Planning")
    ben.type("!")
    results.add("what is typed then", seen(lambda: "h2: Planning!" in ann.blocks(), True))  # type: ignore[operator]
    for _ in range(2):
        ann.press("control+z")
    results.add("undo goes back behind it", seen(ben.blocks, ["h1: List", "p: one two"]))
    ann.press("control+z")
    results.add("and to what was there first", seen(ben.blocks, before))
    ann.open_file("plan.json", "{")
    results.add("what can't be read is told", seen(lambda: any("JSON" in it for it in ann.notices()), True))
    results.add("and nothing is changed", seen(ben.blocks, before))


def main() -> int:
    """The status."""
    results = Results()
    with tempfile.TemporaryDirectory(prefix="service-") as folder:
        worker, address = begun(folder)
        pages: list[SharedPage] = []
        try:
            pages += [SharedPage(f"{address}/page/shared.html?document=two") for _ in range(2)]
            work(pages[0], pages[1], results)
            for page in pages:
                results.add("no error is in the console", page.messages())
                page.place = f"{address}/page/shared.html?document=three"
                page.open()
            marked(pages[0], pages[1], results)
            pasted(pages[0], pages[1], results)
            kept(pages[0], results)
            opened(pages[0], pages[1], results)
            for page in pages:
                results.add("no error is in the console, and nothing was wrong", page.messages() + page.notices())
        finally:
            for page in pages:
                page.close()
            worker.send_signal(signal.SIGTERM)
            worker.wait(30)
    return int(results.end())


if __name__ == "__main__":
    sys.exit(main())
