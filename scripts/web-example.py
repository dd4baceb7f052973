#!/usr/bin/env python3
"""Opens examples/web/ in a headless browser, and compares what it shows with the topology that it draws:

    scripts/web-example.py                              areas, paths and places of examples/, built by the program of ./mapchain
    scripts/web-example.py --program path/to/mapchain   by another program with the same commands
    scripts/web-example.py --screenshot page.png map.topojson    a topology of your own, and a picture of the page

It needs Debian's packages chromium, chromium-driver and node-vega (for topojson-client). The page is served from a folder of its own.
Compared are: how many features each object has and how many of them are drawn; the bounds of what is drawn, brought back to coordinates,
and those that topojson-client computes, with the topology's `bbox`; and for each feature that is wide enough for a click of the mouse
upon it, what the page then says, with the feature's identifier and properties as they are in the file. Places to click on are computed
here, of the features that `mapchain geo` decodes. The status is 0 where all agree.
"""
import argparse
import base64
import contextlib
import functools
import http.server
import json
import math
import os
import shutil
import socket
import subprocess
import sys
import tempfile
import threading
import time
import urllib.request
from pathlib import Path

ROOT = Path(__file__).resolve().parent.parent
LIBRARY = Path("/usr/share/nodejs/topojson-client/dist/topojson-client.min.js")
NEEDED = "Debian's packages chromium, chromium-driver and node-vega"


class Browser:
    """A session of chromedriver, spoken to as the WebDriver standard says."""

    def __init__(self, room):
        with socket.socket() as free:
            free.bind(("127.0.0.1", 0))
            port = free.getsockname()[1]
        self.driver = subprocess.Popen(["chromedriver", f"--port={port}"], stdout=subprocess.DEVNULL, stderr=subprocess.DEVNULL)
        self.at = f"http://127.0.0.1:{port}"
        words = ["--headless=new", "--disable-gpu", "--hide-scrollbars", "--window-size=900,720", f"--user-data-dir={room}/browser"]
        if os.geteuid() == 0:
            words.append("--no-sandbox")
        wanted = {"capabilities": {"alwaysMatch": {"goog:chromeOptions": {"args": words}}}}
        self.at += "/session/" + self.started(wanted)["sessionId"]

    def started(self, wanted):
        for _ in range(50):
            with contextlib.suppress(ConnectionError, urllib.error.URLError):
                return self.ask("POST", "/session", wanted)
            time.sleep(0.1)
        raise SystemExit("web-example: chromedriver doesn't answer")

    def ask(self, method, path, body=None):
        sent = json.dumps(body).encode() if body is not None else None
        request = urllib.request.Request(self.at + path, sent, {"Content-Type": "application/json"}, method=method)
        with urllib.request.urlopen(request, timeout=60) as answer:
            return json.load(answer)["value"]

    def open(self, address):
        self.ask("POST", "/url", {"url": address})
        for _ in range(100):
            if self.run("return document.body.dataset.ready"):
                return
            time.sleep(0.1)
        raise SystemExit("web-example: the page doesn't get ready")

    def run(self, script, *values):
        return self.ask("POST", "/execute/sync", {"script": script, "args": list(values)})

    def click(self, x, y):
        at = {"type": "pointerMove", "duration": 0, "x": x, "y": y, "origin": "viewport"}
        steps = [at, {"type": "pointerDown", "button": 0}, {"type": "pointerUp", "button": 0}]
        mouse = {"type": "pointer", "id": "mouse", "parameters": {"pointerType": "mouse"}, "actions": steps}
        self.ask("POST", "/actions", {"actions": [mouse]})

    def screenshot(self):
        return base64.b64decode(self.ask("GET", "/screenshot"))

    def close(self):
        with contextlib.suppress(Exception):
            self.ask("DELETE", "")
        self.driver.terminate()
        self.driver.wait()


def crossings(rings, y):
    """Where a horizontal line crosses rings, from left to right: between the first and the second it is inside, and so on."""
    found = []
    for ring in rings:
        for (x0, y0), (x1, y1) in zip(ring, ring[1:]):
            if (y0 <= y) != (y1 <= y):
                found.append(x0 + (y - y0) * (x1 - x0) / (y1 - y0))
    return sorted(found)


def inside(rings):
    """A place inside of a polygon, far from its sides where it lies, and how far that is in each direction."""
    low, high = min(y for _, y in rings[0]), max(y for _, y in rings[0])
    best = (0, None)
    for i in range(1, 40):
        y = low + (high - low) * i / 40
        at = crossings(rings, y)
        for left, right in zip(at[::2], at[1::2]):
            x = (left + right) / 2
            room = min([right - left, *(2 * math.dist((x, y), place) for ring in rings for place in ring)]) / 2
            if room > best[0]:
                best = (room, (x, y))
    return best


def target(geometry):
    """A place of a geometry to click on, and how far around it the geometry goes; points and lines are drawn so many pixels wide."""
    if geometry is None:
        return 0, None
    kind, at = geometry["type"], geometry.get("coordinates")
    if kind == "Point":
        return math.inf, at
    if kind == "MultiPoint":
        return math.inf, at[0]
    if kind in ("LineString", "MultiLineString"):
        line = at if kind == "LineString" else at[0]
        return math.inf, [(a + b) / 2 for a, b in zip(*max(zip(line, line[1:]), key=lambda side: math.dist(*side)))]
    if kind == "Polygon":
        return inside(at)
    if kind == "MultiPolygon":
        return max((inside(rings) for rings in at), key=lambda found: found[0])
    return max((target(member) for member in geometry["geometries"]), key=lambda found: found[0], default=(0, None))


def shown(value):
    """How the page writes a value, numbers as JavaScript has them."""
    if isinstance(value, str):
        return value
    if isinstance(value, float) and value.is_integer():
        value = int(value)
    if isinstance(value, dict):
        return "{" + ",".join(f"{json.dumps(key)}:{quoted(each)}" for key, each in value.items()) + "}"
    if isinstance(value, list):
        return "[" + ",".join(map(quoted, value)) + "]"
    return json.dumps(value)


def quoted(value):
    return json.dumps(value, ensure_ascii=False) if isinstance(value, str) else shown(value)


class Comparison:
    def __init__(self, browser):
        self.browser, self.otherwise = browser, 0

    def say(self, is_so, text):
        self.otherwise += not is_so
        print(("" if is_so else "OTHERWISE: ") + text)

    def bounds(self, topology):
        """What is drawn reaches as far as the topology's `bbox`, and topojson-client computes the same."""
        drawn = self.browser.run(
            """const boxes = [...svg.children].filter(e => e.getAttribute("d") && !e.classList.contains("point")).map(e => e.getBBox());
            const dots = [...svg.querySelectorAll(".point")].map(e => e.getBBox());
            const grown = boxes.concat(dots.map(b => ({ x: b.x + 4, y: b.y + 4, width: b.width - 8, height: b.height - 8 })));
            const end = (f, pick) => f(...grown.map(pick));
            return place.toMap([end(Math.min, b => b.x), end(Math.max, b => b.y + b.height)]).concat(
                place.toMap([end(Math.max, b => b.x + b.width), end(Math.min, b => b.y)]));"""
        )
        told = topology["bbox"]
        pixel = max(told[2] - told[0], told[3] - told[1]) / 540
        away = max(abs(a - b) for a, b in zip(drawn, told)) / pixel
        self.say(away < 0.01, f"bounds: bbox {told}, drawn {drawn}, {away:.5f} pixels away")
        computed = self.browser.run("return fetch('map.topojson').then(a => a.json()).then(t => topojson.bbox(t))")
        away = max(abs(a - b) for a, b in zip(computed, told))
        self.say(away < 1e-9 * max(1, *map(abs, told)), f"bounds: topojson-client computes {computed}, {away} away")

    def features(self, name, features):
        """All features of an object are drawn but those without a place."""
        wanted = [number for number, feature in enumerate(features) if target(feature["geometry"])[1]]
        drawn = self.browser.run(
            """return [...new Set([...svg.children].filter(e => e.dataset.object === arguments[0] && e.getAttribute("d"))
                .map(e => Number(e.dataset.number)))]""", name)
        self.say(sorted(drawn) == wanted, f"{name}: {len(features)} features, of which {len(wanted)} have a place; {len(drawn)} are drawn")

    def clicks(self, name, features, pixel):
        """A click on a feature shows what the file says of it."""
        right = narrow = 0
        for number, feature in enumerate(features):
            room, place = target(feature["geometry"])
            if place is None:
                continue
            if room < 1.5 * pixel:
                narrow += 1
                continue
            x, y = self.browser.run(
                """const at = svg.getBoundingClientRect(), [x, y] = place.toPage(arguments[0]);
                return [Math.round(at.x + x), Math.round(at.y + y)]""", place)
            self.browser.click(x, y)
            told = self.browser.run(
                """const table = document.getElementById("properties");
                return [table.caption.textContent, [...table.rows].map(row => [...row.cells].map(cell => cell.textContent))]""")
            members = {**({"id": feature["id"]} if "id" in feature else {}), **(feature["properties"] or {})}
            wanted = [f"{name}, feature {number}", [[key, shown(value)] for key, value in members.items()]]
            if told == wanted:
                right += 1
            else:
                self.say(False, f"{name}: a click on feature {number} shows {told}, and not {wanted}")
        self.say(True, f"{name}: clicks on {right} features show what the file says of them; {narrow} are too narrow for a click")


def serve(folder):
    class Quiet(http.server.SimpleHTTPRequestHandler):
        def log_message(self, *_):
            pass

    server = http.server.ThreadingHTTPServer(("127.0.0.1", 0), functools.partial(Quiet, directory=folder))
    threading.Thread(target=server.serve_forever, daemon=True).start()
    return server


def layers_of(program, path, topology):
    """The features of each object, as the program decodes them."""
    for name in topology["objects"]:
        text = subprocess.run([program, "geo", "--object", name, path], check=True, capture_output=True).stdout
        decoded = json.loads(text)
        yield name, decoded.get("features", [decoded])


def main():
    parser = argparse.ArgumentParser(description="Tries examples/web/ in a headless browser.")
    parser.add_argument("topology", nargs="?", type=Path, help="the topology; without it, one of areas, paths and places of examples/")
    parser.add_argument("--program", help="without it, that of ./mapchain")
    parser.add_argument("--screenshot", type=Path, help="where to put a picture of the page")
    words = parser.parse_args()
    if not (shutil.which("chromium") and shutil.which("chromedriver") and LIBRARY.exists()):
        sys.exit(f"web-example: it needs {NEEDED}")
    program = words.program or subprocess.run(
        [ROOT / "scripts" / "program-path.sh"], check=True, capture_output=True, text=True).stdout.strip()
    with tempfile.TemporaryDirectory() as room:
        site = Path(room) / "site"
        (site / "lib").mkdir(parents=True)
        shutil.copy(ROOT / "examples" / "web" / "index.html", site)
        (site / "lib" / LIBRARY.name).symlink_to(LIBRARY)
        drawn = site / "map.topojson"
        if words.topology:
            shutil.copy(words.topology, drawn)
        else:
            layers = [f"{name}={ROOT}/examples/{name}.json" for name in ("areas", "paths", "places")]
            with drawn.open("wb") as out:
                subprocess.run([program, "build", "--grid", "10000", *layers], check=True, stdout=out, stderr=subprocess.DEVNULL)
        topology = json.loads(drawn.read_text())
        server = serve(str(site))
        browser = Browser(room)
        try:
            browser.open(f"http://127.0.0.1:{server.server_port}/index.html")
            comparison = Comparison(browser)
            comparison.bounds(topology)
            pixel = abs(browser.run("return place.toMap([0, 0])[1] - place.toMap([0, 1])[1]"))
            for name, features in layers_of(program, drawn, topology):
                comparison.features(name, features)
                comparison.clicks(name, features, pixel)
            if words.screenshot:
                words.screenshot.write_bytes(browser.screenshot())
        finally:
            browser.close()
            server.shutdown()
    sys.exit(0 if comparison.otherwise == 0 else 1)


if __name__ == "__main__":
    main()
