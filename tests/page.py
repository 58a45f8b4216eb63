"""The page of a map in Chromium: page.py PROGRAM [FOLDER] prints what differs from what is written here.

It drags a pin, moves the slider, closes a street by a click and opens it again, on the town that draw_town.py draws.
With FOLDER pictures of the page are kept there. Chromium is asked by its driver over the loopback.
"""

import base64
import json
import os
import re
import subprocess
import sys
import tempfile
import time
import urllib.request

from service import expect, script, write

OPTIONS = ["--headless=new", "--no-sandbox", "--disable-gpu", "--window-size=1200,800"]
FROM, TO = "8.002,50.001", "8.036,50.018"


class Browser:
    """A browser with one page, by the protocol of WebDriver."""

    def __init__(self, folder):
        command = ["chromedriver", "--port=0"]
        self.driver = subprocess.Popen(command, stdout=subprocess.PIPE, stderr=subprocess.DEVNULL, text=True)
        ports = (re.search(r"successfully on port (\d+)", line) for line in self.driver.stdout)
        port = next(found[1] for found in ports if found)
        self.base = f"http://127.0.0.1:{port}"
        wanted = {"goog:chromeOptions": {"args": [*OPTIONS, f"--user-data-dir={folder}"]}}
        self.base += f"/session/{self.ask('/session', {'capabilities': {'alwaysMatch': wanted}})['sessionId']}"

    def ask(self, path, words=None):
        data = None if words is None else json.dumps(words).encode()
        request = urllib.request.Request(self.base + path, data, {"Content-Type": "application/json"})
        with urllib.request.urlopen(request, timeout=60) as reply:
            return json.load(reply)["value"]

    def run(self, text):
        return self.ask("/execute/sync", {"script": f"return {text}", "args": []})

    def drag(self, *places):
        """Presses the button at a place, moves to others, and lets go."""
        move = [{"type": "pointerMove", "x": round(x), "y": round(y), "duration": 50} for x, y in places]
        actions = [move[0], {"type": "pointerDown", "button": 0}, *move[1:], {"type": "pointerUp", "button": 0}]
        self.ask("/actions", {"actions": [{"type": "pointer", "id": "mouse", "actions": actions}]})

    def settled(self):
        """The sum and the streets, once nothing is asked any more."""
        end = time.monotonic() + 30
        while self.run("document.body.ariaBusy") != "false" and time.monotonic() < end:
            time.sleep(0.1)
        streets = "[...document.querySelectorAll('#steps li')].map(each => each.firstChild.textContent.trim())"
        return self.run("document.getElementById('sum').textContent"), self.run(streets)

    def picture(self, folder, name):
        if folder:
            with open(f"{folder}/{name}.png", "wb") as out:
                out.write(base64.b64decode(self.ask("/screenshot")))

    def end(self):
        try:
            urllib.request.urlopen(urllib.request.Request(self.base, method="DELETE"), timeout=20).close()
        finally:
            self.driver.terminate()
            self.driver.communicate(timeout=20)


def check(browser, address, pictures):
    browser.ask("/url", {"url": f"{address}/?from={FROM}&to={TO}"})
    route = "5 min 12 s, 4.4 km", [
        "Birch Street South", "right: Mill Lane", "left: West Bridge Avenue", "right: South Avenue",
        "left: East Bridge Avenue", "right: Quarry Road",
    ]
    found = browser.settled()
    expect(f"the route: {found}", found == route)

    street = browser.run("spot([8.0045, 50.0013])")
    browser.drag(street)
    found = browser.settled()
    closed = browser.run("document.getElementById('closed').textContent")
    expect(f"closed: {closed!r}, {found}", closed == "Closed: Mill Lane" and found[0] > route[0])
    browser.run("document.getElementById('slider').value = 3")
    browser.run("document.getElementById('slider').dispatchEvent(new Event('input'))")
    browser.settled()
    expect("nothing is reached", browser.run("reached.length") > 50)
    browser.picture(pictures, "closed")

    browser.drag(street)
    found = browser.settled()
    expect(f"opened again: {found}", found == route and browser.run("closed.length") == 0)

    # The other pin goes to a crossing near the first.
    browser.drag(*map(browser.run, ("spot(pins.end)", "spot([8.02, 50.012])", "spot([8.004, 50.001])")))
    found = browser.settled()
    # A pixel is some three metres.
    is_near = re.fullmatch("2[01] s, 17[0-6] m", found[0])
    expect(f"dragged: {found}", is_near and found[1] == ["Birch Street South", "right: Mill Lane"])
    browser.picture(pictures, "dragged")
    fault = browser.run("document.getElementById('fault').textContent")
    expect(f"a fault: {fault}", not fault)


def main():
    os.environ["HOLLOWBOWL"] = sys.argv[1]
    with tempfile.TemporaryDirectory(ignore_cleanup_errors=True) as folder:
        write(f"{folder}/town.osm", script("draw_town.py").stdout)
        command = [sys.executable, "-B", "-m", "hollowbowl.web", "--port", "0", f"{folder}/town.osm"]
        server = subprocess.Popen(command, stderr=subprocess.PIPE, text=True)
        address = next(found[0] for found in (re.search(r"http://\S+", line) for line in server.stderr) if found)
        browser = None
        try:
            browser = Browser(f"{folder}/browser")
            check(browser, address, sys.argv[2] if len(sys.argv) > 2 else None)
        finally:
            if browser:
                browser.end()
            server.terminate()
            _, said = server.communicate(timeout=20)
    expect(f"said {said!r}", not said)


main()
