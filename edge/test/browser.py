"""Debian's chromium without a window: what it makes of a page, and what it says of it."""

import os
import re
import shutil
import signal
import subprocess
import tempfile
from html.parser import HTMLParser

LIMIT = 180  # seconds, for a browser that hangs


def there():
    return shutil.which("chromium") is not None


def run(page, *words):
    """The output of chromium on a page, and the lines of the page's console. Where the browser doesn't start it is tried
    once more; a page that it draws is judged as it is."""
    for attempt in range(2):
        with tempfile.TemporaryDirectory(prefix="otap-browser-") as profile:
            command = ["chromium", "--headless", "--disable-gpu", "--no-first-run", "--disable-extensions", "--disable-sync",
                       "--disable-background-networking", "--user-data-dir=" + profile, "--enable-logging=stderr", "--log-level=0", *words]
            if os.geteuid() == 0:
                command.append("--no-sandbox")  # chromium refuses to run as root with one
            status, shown, said = ended([*command, "file://" + os.path.abspath(page)])
        if status == 0:
            return shown, [line for line in said.splitlines() if re.search(r":CONSOLE[:(]", line)]
    raise SystemExit("chromium doesn't start: %s" % said[-2000:])


def ended(command):
    """The status and the outputs of a browser. One that doesn't end is killed with all its processes."""
    started = subprocess.Popen(command, stdout=subprocess.PIPE, stderr=subprocess.PIPE, start_new_session=True)
    try:
        shown, said = started.communicate(timeout=LIMIT)
    except subprocess.TimeoutExpired:
        os.killpg(started.pid, signal.SIGKILL)
        shown, said = started.communicate()
    return started.returncode, shown.decode(errors="replace"), said.decode(errors="replace")


def drawn(page):
    """The elements that the browser made of a page, and what its console says."""
    text, console = run(page, "--dump-dom")
    return tree(text), console


def picture(page, target, width, height, *words):
    run(page, "--hide-scrollbars", "--window-size=%d,%d" % (width, height), "--screenshot=" + os.path.abspath(target), *words)


class Element:
    def __init__(self, tag, attributes):
        self.tag, self.attributes, self.children = tag, dict(attributes), []

    def all(self, tag=None, **wanted):
        """The elements inside with this tag and these attributes, in order. `cls` is one of the classes."""
        for child in self.children:
            if isinstance(child, Element):
                if (tag is None or child.tag == tag) and all(child.has(name, value) for name, value in wanted.items()):
                    yield child
                yield from child.all(tag, **wanted)

    def has(self, name, value):
        if name == "cls":
            return value in (self.attributes.get("class") or "").split()
        return self.attributes.get(name) == value

    def one(self, tag=None, **wanted):
        found = list(self.all(tag, **wanted))
        if len(found) != 1:
            raise AssertionError("%d elements %s %s" % (len(found), tag, wanted))
        return found[0]

    def text(self):
        return "".join(c if isinstance(c, str) else c.text() for c in self.children)


class Parser(HTMLParser):
    # Elements that have no end; those of SVG are ended where they begin, in the page's own text.
    EMPTY = {"meta", "link", "br", "img", "input", "hr"}

    def __init__(self):
        super().__init__(convert_charrefs=True)
        self.root = Element("", ())
        self.open = [self.root]

    def handle_starttag(self, tag, attributes):
        element = Element(tag, attributes)
        self.open[-1].children.append(element)
        if tag not in self.EMPTY:
            self.open.append(element)

    def handle_startendtag(self, tag, attributes):
        self.open[-1].children.append(Element(tag, attributes))

    def handle_endtag(self, tag):
        for depth in range(len(self.open) - 1, 0, -1):
            if self.open[depth].tag == tag:
                del self.open[depth:]
                return

    def handle_data(self, data):
        self.open[-1].children.append(data)


def tree(text):
    parser = Parser()
    parser.feed(text)
    parser.close()
    return parser.root
