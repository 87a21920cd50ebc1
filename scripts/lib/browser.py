"""Opens the page in Debian's chromium, by chromedriver and the WebDriver protocol, and in its firefox-esr, by Marionette. The
packages are chromium, chromium-driver and firefox-esr."""

import json
import os
import socket
import subprocess
import tempfile
import time
import urllib.request

# What a step of the page may take, in seconds.
PATIENCE = 30
QUIET = {"stdout": subprocess.DEVNULL, "stderr": subprocess.DEVNULL}
ROWS = "return [...document.querySelectorAll('#tree .row')].map(it => [parseFloat(it.style.top), it.textContent])"
SET = """const box = document.getElementById('value'); document.getElementById('verdict').textContent = '';
box.value = arguments[0]; box.dispatchEvent(new Event('input'));"""
VERDICT = "return document.getElementById('verdict').textContent"
DROP = """const file = new File([new Uint8Array(arguments[0])], 'x.der'), data = new DataTransfer(); data.items.add(file);
document.getElementById('verdict').textContent = '';
dispatchEvent(new DragEvent('drop', { dataTransfer: data, cancelable: true, bubbles: true }));"""
BROKEN = """window.broken = []; addEventListener('securitypolicyviolation', it => window.broken.push(it.violatedDirective));
addEventListener('error', it => window.broken.push(it.message)); addEventListener('unhandledrejection', it => window.broken.push(String(it.reason)));"""


def wait(is_so):
    """Waits until something is so."""
    end = time.time() + PATIENCE
    while True:
        try:
            if is_so():
                return
        except (OSError, KeyError):
            pass
        if time.time() > end:
            raise TimeoutError("the page does not answer")
        time.sleep(0.05)


def free_port():
    with socket.socket() as it:
        it.bind(("127.0.0.1", 0))
        return it.getsockname()[1]


def pressed(names):
    """Returns keys, each by its code in the WebDriver protocol, as what is pressed and released."""
    steps = [{"type": kind, "value": it} for it in names for kind in ("keyDown", "keyUp")]
    return {"actions": [{"type": "key", "id": "keys", "actions": steps}]}


class Chromium:
    """Chromium without a window, with a profile in a folder."""

    def __init__(self, folder):
        self.port = free_port()
        self.driver = subprocess.Popen(["chromedriver", f"--port={self.port}"], **QUIET)
        flags = ["--headless=new", "--no-sandbox", "--disable-gpu", "--window-size=1400,1000", f"--user-data-dir={folder}"]
        wait(lambda: self.ask("GET", "/status")["ready"])
        wanted = {"browserName": "chrome", "goog:chromeOptions": {"args": flags}}
        self.session = "/session/" + self.ask("POST", "/session", {"capabilities": {"alwaysMatch": wanted}})["sessionId"]

    def ask(self, method, path, body=None):
        data = None if body is None else json.dumps(body).encode()
        asked = urllib.request.Request(f"http://127.0.0.1:{self.port}{path}", data, method=method)
        with urllib.request.urlopen(asked, timeout=PATIENCE) as answer:
            return json.load(answer)["value"]

    def open(self, url):
        self.ask("POST", f"{self.session}/url", {"url": url})

    def run(self, script, *values):
        return self.ask("POST", f"{self.session}/execute/sync", {"script": script, "args": list(values)})

    def keys(self, *names):
        self.ask("POST", f"{self.session}/actions", pressed(names))

    def close(self):
        try:
            self.ask("DELETE", self.session)
        finally:
            self.driver.terminate()
            self.driver.wait()


class Firefox:
    """Firefox without a window, with a profile in a folder. A message of Marionette is JSON after its length and a colon."""

    def __init__(self, folder):
        port, self.count = free_port(), 0
        with open(f"{folder}/user.js", "w", encoding="utf-8") as file:
            file.write(f'user_pref("marionette.port", {port});\n')
        self.browser = subprocess.Popen(["firefox-esr", "--headless", "--marionette", "--profile", folder], **QUIET)
        wait(lambda: self.joined(port))
        self.ask("WebDriver:NewSession", {})
        self.ask("WebDriver:SetWindowRect", {"width": 1400, "height": 1000})

    def joined(self, port):
        self.wire = socket.create_connection(("127.0.0.1", port), PATIENCE)
        self.answers = self.wire.makefile("rb")
        return self.read()["marionetteProtocol"] == 3

    def read(self):
        length = b""
        while not length.endswith(b":"):
            octet = self.answers.read(1)
            if not octet:
                raise ConnectionError("firefox is gone")
            length += octet
        return json.loads(self.answers.read(int(length[:-1])))

    def ask(self, name, values):
        self.count += 1
        data = json.dumps([0, self.count, name, values]).encode()
        self.wire.sendall(b"%d:%s" % (len(data), data))
        _, _, fault, answer = self.read()
        if fault:
            raise RuntimeError(fault["message"])
        return answer.get("value") if isinstance(answer, dict) else answer

    def open(self, url):
        self.ask("WebDriver:Navigate", {"url": url})

    def run(self, script, *values):
        return self.ask("WebDriver:ExecuteScript", {"script": script, "args": list(values), "newSandbox": False, "sandbox": None})

    def keys(self, *names):
        self.ask("WebDriver:PerformActions", pressed(names))

    def close(self):
        self.wire.close()
        self.browser.terminate()
        self.browser.wait()


def rows_of(page):
    """Returns the rows of the tree that are in view, without the signs of what is open."""
    found = [text for _, text in sorted(page.run(ROWS))]
    return [text.replace("▾", " ").replace("▸", " ").replace("\u00a0", " ") for text in found]


def put(page, text):
    page.run(SET, text)
    wait(lambda: page.run(VERDICT))
    return page.run(VERDICT)


def checks(page, url, expected, certificate):
    """Yields, for each check of the page at an address, None or the fault."""
    page.open(url)
    wait(lambda: page.run("return document.documentElement.dataset.isReady === 'true'"))
    page.run(BROKEN)
    for text, rows in expected.items():
        verdict = put(page, text)
        found, wanted = [" ".join(it.split()) for it in rows_of(page)], [" ".join(it.replace("(guessed)", "").split()) for it in rows]
        is_right = len(found) == len(wanted) and all(own.startswith(it) for own, it in zip(found, wanted))
        is_right = is_right and ("✗" in verdict) == any("✗" in it for it in rows)
        yield None if is_right else f"{url}: {text}: {found}, {verdict}"
    octets = bytes.fromhex(certificate)
    page.run(DROP, list(octets))
    wait(lambda: page.run(VERDICT))
    yield None if page.run(VERDICT).startswith(f"x.der: {len(octets)} octets") else f"{url}: a file: {page.run(VERDICT)}"
    page.run("document.getElementById('tree').focus()")
    page.keys("\ue015", "\ue015")
    chosen = page.run("return document.querySelector('#tree .chosen').textContent")
    yield None if "[0]" in chosen else f"{url}: the third row is {chosen}"
    marked = page.run("return [...document.querySelectorAll('#octets .tag[id]')].map(it => Number(it.dataset.at))")
    yield None if marked == [8] else f"{url}: the tag of the third row is marked at {marked}"
    page.run("document.getElementById('octet-13').click()")
    chosen = page.run("return document.querySelector('#tree .chosen').textContent")
    yield None if "INTEGER" in chosen else f"{url}: octet 13 is in {chosen}"
    page.open(f"{url}#{'MAMCAQU'}")
    wait(lambda: page.run(VERDICT).startswith("base64: 5 octets"))
    yield None if [it.split() for it in rows_of(page)] == [["SEQUENCE", "(1)"], ["INTEGER", "5"]] else f"{url}: a link"
    page.run("document.querySelectorAll('#tree .row')[1].click()")
    page.run("document.querySelector('#detail input').value = '128'; document.querySelector('#detail form').requestSubmit()")
    wait(lambda: page.run(VERDICT).startswith("edited: 6 octets"))
    value = page.run("return document.getElementById('value').value")
    yield None if value == "300402020080" else f"{url}: another value is {value}"
    yield None if page.run("return window.broken ?? []") == [] else f"{url}: {page.run('return window.broken')}"


def faults_of(path, expected, certificate):
    """Yields, for each check of the page in a file, in each browser, None or the fault."""
    for kind in (Chromium, Firefox):
        with tempfile.TemporaryDirectory(prefix="page-", ignore_cleanup_errors=True) as folder:
            page = kind(folder)
            try:
                for fault in checks(page, f"file://{os.path.abspath(path)}", expected, certificate):
                    yield fault and f"{kind.__name__}: {fault}"
            finally:
                page.close()
