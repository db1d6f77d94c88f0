#!/usr/bin/env python3
"""Drives the page of web/ in headless Chromium, and compares what it shows with segtool: wasm_page.py SEGTOOL [PICTURES]

Needs chromium, chromedriver, and the module in web/out. Writes pictures of the page to the folder PICTURES if it is given. Prints how
long images of 64 MiB take to open."""
import base64
import functools
import http.server
import json
import os
import re
import subprocess
import sys
import tempfile
import threading
import time
import urllib.error
import urllib.request
from pathlib import Path

ROOT = Path(__file__).resolve().parent.parent
EXAMPLES = ROOT / "examples"
ELEMENT = "element-6066-11e4-a52e-4f735466cecf"
KEYS = {"right": "\ue014", "left": "\ue012", "end": "\ue010", "enter": "\ue007"}
LARGE = 64 * 1024 * 1024

# A client that makes a list of a million numbers, to fill a large image.
FILLER = """type i64
type list t0
name numbers
CONST r1 1
CONST r2 0
FINDOR r0 - t1 k0
  WHILE r1 1500000
    PUSH r3 r0
      STORE r3 r2
      ADD r2 r2 r1
    ELSE
      CONST r1 0
    END
  END
ELSE
END
"""

HELLO = """type i64
name visits
CONST r1 1
FINDOR r0 - t0 k0
  LOAD r2 r0
  ADD r2 r2 r1
  STORE r0 r2
  OUTI r2
ELSE
END
"""


# A program that runs for seconds.
LONG = """let sum = 0
for i in 0..160_000_000 {
    sum += i
}
print sum
"""

# A program with errors of several kinds.
WRONG = """object visits: int
let a = b + 1
visits.push(3)
\tprint "ä", c
"""

# A program with warnings.
UNUSED = """object visits: int
visits = 1
let a = 2
"""


class Handler(http.server.SimpleHTTPRequestHandler):
    extensions_map = {**http.server.SimpleHTTPRequestHandler.extensions_map, ".js": "text/javascript", ".wasm": "application/wasm"}

    def log_message(self, *_):
        pass


class Browser:
    """A browser, by its driver's protocol."""

    def __init__(self, port):
        self.driver = f"http://127.0.0.1:{port}"
        options = {"args": ["--headless=new", "--no-sandbox", "--window-size=1500,1100", "--force-device-scale-factor=1"]}
        capabilities = {"alwaysMatch": {"browserName": "chrome", "goog:chromeOptions": options, "goog:loggingPrefs": {"browser": "ALL"}}}
        found = self.ask("/session", capabilities=capabilities)
        self.session = f"/session/{found['sessionId']}"
        self.version = found["capabilities"]["browserVersion"]

    def ask(self, path, method="POST", **body):
        data = json.dumps(body).encode() if method == "POST" else None
        request = urllib.request.Request(self.driver + path, data, {"Content-Type": "application/json"}, method=method)
        try:
            with urllib.request.urlopen(request, timeout=120) as answer:
                return json.load(answer)["value"]
        except urllib.error.HTTPError as error:
            raise AssertionError(json.load(error)["value"]["message"]) from None

    def go(self, url):
        self.ask(f"{self.session}/url", url=url)

    def find(self, selector):
        return self.ask(f"{self.session}/element", using="css selector", value=selector)[ELEMENT]

    def click(self, selector):
        self.ask(f"{self.session}/element/{self.find(selector)}/click")

    def type(self, selector, text):
        self.ask(f"{self.session}/element/{self.find(selector)}/value", text=text)

    def script(self, code, *values):
        return self.ask(f"{self.session}/execute/sync", script=code, args=list(values))

    def text(self, selector):
        return self.script("return document.querySelector(arguments[0]).textContent", selector)

    def wait(self, what, code, *values, seconds=60):
        """Waits until a script returns something that is true, and returns it."""
        end = time.monotonic() + seconds
        while time.monotonic() < end:
            if found := self.script(code, *values):
                return found
            time.sleep(0.02)
        raise AssertionError(f"{what}: not within {seconds} s; the page says: {self.text('#engine')} {self.text('#verdict')}")

    def wait_for_text(self, selector, pattern, seconds=60):
        code = "const found = document.querySelector(arguments[0]).textContent; return RegExp(arguments[1], 's').test(found) && found"
        return self.wait(f"{selector} with {pattern}", code, selector, pattern, seconds=seconds)

    def set_colours(self, scheme):
        feature = {"name": "prefers-color-scheme", "value": scheme}
        self.ask(f"{self.session}/goog/cdp/execute", cmd="Emulation.setEmulatedMedia", params={"features": [feature]})

    def picture(self, file):
        height = self.script("return document.documentElement.scrollHeight")
        metrics = {"width": 1500, "height": min(height, 4000), "deviceScaleFactor": 1, "mobile": False}
        self.ask(f"{self.session}/goog/cdp/execute", cmd="Emulation.setDeviceMetricsOverride", params=metrics)
        time.sleep(0.3)
        file.write_bytes(base64.b64decode(self.ask(f"{self.session}/screenshot", "GET")))
        self.ask(f"{self.session}/goog/cdp/execute", cmd="Emulation.clearDeviceMetricsOverride", params={})

    def problems(self):
        """What the browser's console has of errors."""
        return [it["message"] for it in self.ask(f"{self.session}/se/log", type="browser") if it["level"] == "SEVERE"]


class Trial:
    """The page in a browser, beside segtool in a folder."""

    def __init__(self, browser, segtool, folder, pictures):
        self.browser, self.segtool, self.folder, self.pictures = browser, segtool, folder, pictures

    def command(self, *words, status=0):
        ran = subprocess.run([self.segtool, *words], cwd=self.folder, capture_output=True, text=True)
        assert ran.returncode == status, (words, ran)
        return ran.stdout if status == 0 else ran.stderr

    def picture(self, name):
        if self.pictures:
            self.browser.picture(self.pictures / f"{name}.png")

    def load(self, title):
        self.browser.script(
            "const box = document.querySelector('#example');"
            "box.value = [...box.options].find((it) => it.textContent.startsWith(arguments[0])).value", title)
        self.browser.click("#load-example")
        self.settle()

    def load_source(self, name):
        self.choose("#source-example", name)
        self.browser.click("#load-source")
        self.settle()

    def choose(self, selector, value):
        self.browser.script(
            "const box = document.querySelector(arguments[0]); box.value = arguments[1];"
            "box.dispatchEvent(new Event('change', { bubbles: true }))", selector, value)

    def settle(self):
        """Waits until the page has done what was asked."""
        self.browser.wait("the end of what was asked", "return document.querySelector('#main').ariaBusy !== 'true'")

    def shown(self):
        """The values that the page shows, as lines without indentation."""
        found = self.browser.script(
            "return [...document.querySelectorAll('#values summary, #values .leaf')].map((it) => it.textContent)")
        return [line.strip() for line in found]

    def expect_values(self, image):
        wanted = [line.strip() for line in self.command("show", image).splitlines()]
        self.browser.wait(f"values of {image}", """
            const found = [...document.querySelectorAll('#values summary, #values .leaf')].map((it) => it.textContent);
            return JSON.stringify(found) === JSON.stringify(arguments[0])""", wanted, seconds=10)

    def run(self):
        self.browser.click("#run")
        self.settle()

    def counter(self):
        (self.folder / "counter").write_bytes((EXAMPLES / "counter.image").read_bytes())
        self.expect_costs("counter", "increment.lez")
        self.expect_values("counter")
        self.picture("1-counter")
        self.run()
        assert self.browser.text("#output") == self.command("run", "counter", "saved", EXAMPLES / "increment.lez")
        self.expect_values("saved")
        self.browser.click("#undo")
        self.settle()
        self.expect_values("counter")

    def expect_costs(self, image, name):
        """The page shows the steps of each line of an example, and the loops that cost the most."""
        whole, *table = self.command("verify", image, EXAMPLES / name, "--explain").splitlines()
        self.browser.wait_for_text("#bound", f"at most {int(whole.split()[1]):,} steps")
        rows = [re.match(r" *(\d+) +\d+ +(\d+)(  |$)", row) for row in table]
        wanted = {row[2]: row[1] for row in rows if row}
        gutter = [line.split() for line in self.browser.text("#gutter").splitlines()]
        shown = {line[-1]: line[0] for line in gutter if len(line) > 1}
        assert shown.keys() == wanted.keys(), (name, shown, wanted)
        assert all(shown[line] == steps for line, steps in wanted.items() if int(steps) < 1000), (name, shown, wanted)
        loops = [row.replace("the loop", "Loop", 1) for row in table if row.startswith("the loop")]
        assert self.browser.script("return [...document.querySelectorAll('#loops li')].map((it) => it.textContent)") == loops, name

    def cache(self):
        self.load("A cache")
        program = EXAMPLES / "cache.lez"
        (self.folder / "questions").write_text("abcada")
        (self.folder / "more").write_text("dada")
        self.command("new", "cache", "2048", "seq", "flat")
        self.command("run", "cache", "cache", program, "--input", "questions")
        self.expect_values("cache")
        self.expect_costs("cache", "cache.lez")
        self.map()
        self.steps(program)
        self.run()
        assert self.browser.text("#output") == self.command("run", "cache", "cache", program, "--input", "more")
        self.expect_values("cache")

    def map(self):
        """Each block that the arrow keys lead to is the next one that segtool prints."""
        for index, line in enumerate(self.command("map", "cache").splitlines()):
            at, units, _, words = line.split(" ", 3)
            self.browser.type("#canvas", KEYS["right"])
            told = self.browser.wait_for_text("#block", rf"^Block at {at}:", seconds=10)
            assert told.startswith(f"Block at {at}: {words}, {int(units):,} unit"), (told, line)
            if index == 4:
                self.browser.script("document.querySelector('#canvas').scrollIntoView()")
                self.picture("2-map")
        self.browser.type("#canvas", KEYS["enter"])
        assert "block at" in self.browser.text("#place")

    def steps(self, program):
        """Steps through a program on the image `cache`, forth and back, and compares the rows with the lines of its trace."""
        trace = self.command("trace", "cache", program, "--input", "more").splitlines()
        trace = [line for line in trace if not line.startswith("out ")]
        self.browser.click("#step")
        self.browser.wait_for_text("#changes", "Before")
        for count, line in enumerate(trace[:20], 1):
            self.browser.click("#forth")
            self.expect_step(count, line)
        self.picture("3-steps")
        self.browser.click("#line-forth")
        lines = [line.split()[0] for line in trace]
        self.expect_performed(next(at for at in range(21, len(trace)) if lines[at] != lines[20]))
        self.browser.click("#last")
        self.expect_performed(len(trace))
        self.browser.click("#back")
        self.expect_performed(len(trace) - 1)
        self.browser.click("#leave")
        self.expect_values("cache")

    def expect_performed(self, count):
        self.browser.wait(f"step {count}", "return document.querySelector('#performed').value === arguments[0]", str(count))
        self.settle()

    def expect_step(self, count, line):
        """The page shows a line of a trace."""
        self.expect_performed(count)
        source, instruction = re.match(r" *(\d+) +[-\d]+ +\d+  (\S.*?) *(?:;|$)", line).groups()
        row = self.browser.script("return [...document.querySelectorAll('tr[aria-current] td')].map((it) => it.textContent)")
        assert row[1:3] == [source, instruction], (row, line)
        registers = self.browser.script(
            "return [...document.querySelectorAll('#registers tr')].map((row) => [...row.children].map((it) => it.textContent"
            ".replace(' (changed)', '')).filter((it) => it !== '').join(' '))")
        wanted = line.split("  ; ")[1].replace(" = ", " ").split(", ") if "  ; " in line else []
        assert [it for it in registers if not it.endswith(" undefined")] == wanted, (registers, line)

    def editor(self):
        """Programs: their costs, their errors at their places, and their warnings."""
        self.load("Visits")
        self.command("new", "empty", "4096", "best", "tree")
        for file in sorted(EXAMPLES.glob("*.lez")):
            self.load_source(file.name)
            self.expect_costs("empty", file.name)
        self.set_text(WRONG)
        problems = self.expect_problems(WRONG, "error")
        assert len(problems) > 2, problems
        self.browser.wait_for_text("#bound", f"^{len(problems)} errors")
        assert self.browser.script("return document.querySelector('#run').disabled")
        self.expect_carets(problems)
        self.picture("4-errors")
        self.browser.click("#problems li:last-child button")
        line, column = problems[-1][:2]
        at = sum(len(it) + 1 for it in WRONG.split("\n")[:line - 1]) + column - 1
        assert self.browser.script("return document.querySelector('#text').selectionStart") == at
        self.set_text(UNUSED)
        problems = self.expect_problems(UNUSED, "warning")
        self.browser.wait_for_text("#bound", f"{len(problems)} warnings")
        self.picture("5-warnings")

    def expect_problems(self, text, kind):
        """The page shows the errors or the warnings that segtool prints. Returns the line, the column and the width of each."""
        (self.folder / "wrong.lez").write_text(text)
        words = [self.segtool, "compile", "wrong.lez", "wrong.client", "--on", "empty", "--force"]
        printed = subprocess.run(words, cwd=self.folder, capture_output=True, text=True).stderr
        found = re.findall(rf"^wrong\.lez:(\d+):(\d+): {kind}: (.*)\n.*\n[ \t]*(\^+)\n(?:hint: (.*)\n)?", printed, re.M)
        wanted = [f"Line {line}, column {column}: {kind}: {message}{hint and ' — '}{hint}" for line, column, message, _, hint in found]
        self.browser.wait(f"problems: {wanted}", """
            const found = [...document.querySelectorAll('#problems li')].map((it) => it.textContent);
            return JSON.stringify(found) === JSON.stringify(arguments[0])""", wanted, seconds=10)
        return [(int(line), int(column), len(carets)) for line, column, _, carets, _ in found]

    def expect_carets(self, problems):
        """Each problem is underlined at its place."""
        carets = self.browser.script(
            "return [...document.querySelectorAll('.caret')].map((it) => [it.parentElement.offsetTop, it.offsetLeft, it.offsetWidth])")
        assert len(carets) == len(problems), (carets, problems)
        (top, left, width), (line, column, count) = carets[0], problems[0]
        for (other_top, other_left, other_width), (other_line, other_column, other_count) in zip(carets, problems):
            assert abs(other_top - top - 24 * (other_line - line)) < 2, (carets, problems)
            assert abs(other_width / other_count - width / count) < 1, (carets, problems)
            if "\t" not in WRONG.split("\n")[other_line - 1]:
                assert abs(other_left - left - width / count * (other_column - column)) < 2, (carets, problems)

    def texts(self):
        """Assembler texts, and their first flaw."""
        self.load("Visits")
        for file in sorted(EXAMPLES.glob("*.text")):
            self.load_source(file.name)
            self.expect_costs("empty", file.name)
        self.set_text(HELLO)
        self.browser.wait_for_text("#bound", "at most 6 steps")
        self.set_text(HELLO.replace("ADD r2 r2 r1", "ADD r2 r2 r9"))
        told = self.browser.wait_for_text("#bound", "^Line 6: fault 22 3 1")
        assert "r9" in told, told
        assert self.browser.script("return document.querySelectorAll('.mark.error').length") == 1
        (self.folder / "visits.text").write_text(HELLO.replace("ADD r2 r2 r1", "ADD r2 r2 r9"))
        wanted = self.command("verify", "empty", "visits.text", "--explain", status=1)
        assert self.browser.text("#rejection") == "\n".join(wanted.splitlines()[1:])
        self.picture("6-text")
        self.set_text(HELLO.replace("STORE r0 r2", "STORE r0"))
        self.browser.wait_for_text("#bound", "^Line 7: fault 21 7")

    def stop(self):
        """A run that is stopped leaves the image as it was, and the next one runs."""
        self.load("A number")
        self.set_text(LONG)
        self.browser.wait_for_text("#bound", "at most [0-9,]{10,} steps")
        self.browser.click("#run")
        self.browser.wait_for_text("#ran", "It runs")
        self.browser.click("#stop")
        self.browser.wait_for_text("#ran", "stopped")
        self.settle()
        self.load("A number")
        self.run()
        assert self.browser.text("#output") == "42\n"

    def set_text(self, text):
        self.browser.script(
            "const text = document.querySelector('#text'); text.value = arguments[0];"
            "document.querySelector('#bound').textContent = '';"
            "text.dispatchEvent(new Event('input', { bubbles: true }))", text)

    def damaged(self):
        self.load("A damaged")
        damaged = bytearray((EXAMPLES / "counter.image").read_bytes())
        damaged[756] = 2
        (self.folder / "damaged").write_bytes(damaged)
        line, *explanation = self.command("check", "damaged", "--explain", status=1).splitlines()
        assert f"refused, {line}." in self.browser.text("#verdict")
        assert self.browser.text("#explanation") == "\n".join(explanation)
        assert self.browser.script("return document.querySelector('#bytes mark.fault').title") == f"byte {line.split()[-1]}"
        self.picture("7-damaged")

    def dark(self):
        self.browser.set_colours("dark")
        self.load("A notice")
        self.browser.type("#canvas", KEYS["right"] * 2)
        self.set_text(WRONG)
        self.browser.wait_for_text("#bound", "errors")
        self.picture("8-dark")
        self.browser.set_colours("light")

    def large(self):
        """Opens images of 64 MiB: an empty one, and one with a list."""
        self.command("new", "large", str(LARGE), "best", "tree")
        self.open("large", "an empty image of 64 MiB")
        (self.folder / "filler").write_text(FILLER)
        self.command("asm", "filler", "filler.client")
        self.command("run", "large", "large", "filler.client")
        self.open("large", "an image of 64 MiB with a list of 1,500,000 numbers")
        self.picture("9-large")

    def open(self, name, label):
        self.browser.script("document.querySelector('#verdict').textContent = ''")
        begun = time.monotonic()
        self.browser.type("#file", str(self.folder / name))
        self.browser.wait_for_text("#verdict", f"{name}: the checker accepts")
        checked = time.monotonic() - begun
        self.settle()
        shown = time.monotonic() - begun
        self.browser.type("#canvas", KEYS["right"])
        self.browser.wait_for_text("#block", "^Block at")
        owners = time.monotonic() - begun - shown
        print(f"{label}: checked after {checked:.2f} s, shown after {shown:.2f} s; the owners of its blocks took {owners:.2f} s more")


def free_port():
    import socket
    with socket.socket() as it:
        it.bind(("127.0.0.1", 0))
        return it.getsockname()[1]


def wait_for_driver(port):
    for _ in range(200):
        try:
            urllib.request.urlopen(f"http://127.0.0.1:{port}/status", timeout=1).close()
            return
        except OSError:
            time.sleep(0.05)
    raise AssertionError("chromedriver doesn't start")


def main():
    segtool = os.path.realpath(sys.argv[1])
    pictures = Path(sys.argv[2]) if len(sys.argv) > 2 else None
    if pictures:
        pictures.mkdir(parents=True, exist_ok=True)
    server = http.server.ThreadingHTTPServer(("127.0.0.1", 0), functools.partial(Handler, directory=str(ROOT / "web")))
    threading.Thread(target=server.serve_forever, daemon=True).start()
    port = free_port()
    driver = subprocess.Popen(["chromedriver", f"--port={port}"], stdout=subprocess.DEVNULL)
    try:
        wait_for_driver(port)
        browser = Browser(port)
        with tempfile.TemporaryDirectory() as folder:
            trial = Trial(browser, segtool, Path(folder), pictures)
            try:
                browser.go(f"http://127.0.0.1:{server.server_port}/")
                for part in (trial.counter, trial.cache, trial.editor, trial.texts, trial.stop, trial.damaged, trial.dark, trial.large):
                    part()
                    problems = browser.problems()
                    assert not problems, problems
            finally:
                browser.ask(browser.session, "DELETE")
        print(f"the page shows what segtool prints, in Chromium {browser.version}")
    finally:
        driver.terminate()
        server.shutdown()


if __name__ == "__main__":
    main()
