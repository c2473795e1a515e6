"""Tests the page in a real browser, headless Chromium with its own driver, against the command line (ctm and the reference)."""
import base64
import csv
import functools
import http.server
import json
import os
import re
import shutil
import struct
import subprocess
import sys
import tempfile
import threading
import time
from pathlib import Path

from selenium import webdriver
from selenium.webdriver.chrome.options import Options
from selenium.webdriver.chrome.service import Service
from selenium.webdriver.common.by import By
from selenium.webdriver.common.keys import Keys

HERE = Path(__file__).resolve().parent
ROOT = HERE.parents[1]
PAGE = ROOT / "target/wasm/nobyaluk.html"
VERSION = (ROOT / "VERSION").read_text().strip()
CTM, REFERENCE = ROOT / "target/bin/ctm", ROOT / "target-rust/release/reference"
BASES = {"bottleneck": "bottleneck", "rocade": "rocade-sud-seconds", "classroom": "classroom", "printed": "printed-run"}
RAMPS = {"bottleneck": (4, 6), "rocade": (2, 5, 7, 11, 14, 16, 19, 21), "classroom": (), "printed": (2,)}

# study, law, and what else the address has
SETTINGS = [
    ("rocade", "record", {}), ("rocade", "open", {}), ("rocade", "fixed", {}), ("rocade", "alinea", {}),
    ("rocade", "demand-capacity", {"load": 96, **{f"ramp-{c}": 450 for c in RAMPS["rocade"]}}), ("rocade", "alinea", {"load": 110, "gain": 25}),
    ("rocade", "open", {"works": 1}), ("rocade", "alinea", {"works": 2, "cell": 11, "from": 60, "to": 150}),
    ("bottleneck", "fixed", {"ramp-4": 300, "ramp-6": 1500}), ("bottleneck", "demand-capacity", {"load": 107}), ("bottleneck", "record", {}),
    ("classroom", "record", {"load": 120, "works": 1}), ("printed", "record", {}), ("printed", "fixed", {"load": 150, "ramp-2": 700}),
]


def output(*command, given=b""):
    return subprocess.run([str(x) for x in command], input=given, stdout=subprocess.PIPE, check=False).stdout


class Quiet(http.server.SimpleHTTPRequestHandler):
    """A server that prints nothing, and serves modules as JavaScript."""
    extensions_map = {**http.server.SimpleHTTPRequestHandler.extensions_map, ".mjs": "text/javascript", ".js": "text/javascript"}

    def log_message(self, *_):
        pass


class Record:
    """The parts of a record that this test uses: its shape, speeds and capacities, and its rows."""

    def __init__(self, data):
        self.data, version, self.n, self.steps = bytearray(data), data[4], data[5], struct.unpack(">H", data[6:8])[0]
        self.seconds, self.header = (struct.unpack(">H", data[8:10])[0], 18) if version == 2 else (0, 16)
        self.at = self.header + 24 * self.n

    def cell(self, i):
        v, _, _, _, _, capacity = struct.unpack(">4H2I", self.data[self.header + 24 * (i - 1) :][:16])
        return v, capacity

    def rows(self):
        return struct.unpack(f">{self.steps * (1 + 2 * self.n)}I", self.data[self.at :])

    def scaled(self, load):
        """With each arrival scaled to these hundredths, halves up."""
        width = 1 + 2 * self.n
        rows = [(x * load + 50) // 100 if k % width == 0 or k % width % 2 else x for k, x in enumerate(self.rows())]
        return bytes(self.data[: self.at]) + struct.pack(f">{len(rows)}I", *rows)


def laws_text(record, study, law, more):
    """The page's meter laws as the reference reads them."""
    seconds, start = (record.seconds, {"bottleneck": 450, "rocade": 675}[study]) if record.seconds else (3.6, 300)
    lines = []
    for cell in RAMPS[study]:
        v, capacity = record.cell(cell)
        critical, rate = int(1000 * capacity / v + 0.5), more.get(f"ramp-{cell}", start)
        rate = 1e6 if rate >= (1500 if record.seconds else 1000) else rate * seconds / 3.6
        lines.append(f"ramp {cell} " + {"open": "fixed 1000000", "fixed": f"fixed {rate!r}", "alinea": f"alinea gain {more.get('gain', 10) / 100!r} target {critical}",
                                        "demand-capacity": f"demand-capacity capacity {capacity} critical {critical} least {rate!r}"}[law])
    return "\n".join(lines) + "\n"


def stated_load(number, peak, count):
    """The stated load of docs/MODEL.md: its arrivals, and the last number."""
    arrivals = []
    for _ in range(count):
        number = (1664525 * number + 1013904223) % 2**32
        arrivals.append((number >> 16) * (peak + 1) // 65536)
    return arrivals, number


class Page:
    def __init__(self, folder):
        options = Options()
        for argument in ("--headless=new", "--no-sandbox", "--disable-gpu", "--disable-dev-shm-usage", "--window-size=1280,900", "--lang=en"):
            options.add_argument(argument)
        options.set_capability("goog:loggingPrefs", {"browser": "ALL"})
        options.binary_location = shutil.which("chromium")
        self.folder, self.driver = folder, webdriver.Chrome(service=Service(shutil.which("chromedriver")), options=options)
        self.driver.execute_cdp_cmd("Browser.setDownloadBehavior", {"behavior": "allow", "downloadPath": str(folder)})

    def go(self, address):
        self.driver.get("about:blank")
        self.driver.get(address)
        self.until(lambda: self.driver.execute_script("return 'ready' in document.body.dataset"))
        assert not self.driver.execute_script("return performance.getEntriesByType('resource').length"), "the page requests something"

    def open(self, **setting):
        self.go(f"{PAGE.as_uri()}#" + "&".join(f"{k}={v}" for k, v in {"lang": "en", **setting}.items()))

    def __getitem__(self, name):
        return self.driver.find_element(By.ID, name)

    def text(self, name):
        return self[name].text.strip()

    def script(self, text, *given):
        return self.driver.execute_script("return " + text, *given)

    def size(self, width):
        """The window's width in CSS pixels; that of a telephone below 600."""
        self.driver.execute_cdp_cmd("Emulation.setDeviceMetricsOverride", {"width": width, "height": 900, "deviceScaleFactor": 1, "mobile": width < 600})

    def link(self, name):
        """The link that a button for the class gives."""
        self[name].click()
        self.until(lambda: self["linked"].find_elements(By.TAG_NAME, "a"), "a link")
        return self["linked"].find_element(By.TAG_NAME, "a").get_attribute("href")

    def until(self, true, what="something"):
        end = time.time() + 60
        while not true():
            assert time.time() < end, f"waited too long for {what}, at {self.driver.current_url}"
            time.sleep(0.02)

    def drop(self, name, data):
        """A file dropped on the page."""
        self.driver.execute_script(
            "const files = new DataTransfer(); files.items.add(new File([Uint8Array.from(arguments[0])], arguments[1]));"
            "document.dispatchEvent(new DragEvent('drop', { dataTransfer: files, bubbles: true, cancelable: true }))", list(data), name)

    def download(self, name):
        path = self.folder / self[name].get_attribute("download")
        path.unlink(missing_ok=True)
        self.driver.execute_script("arguments[0].click()", self[name])
        self.until(lambda: path.exists() and path.stat().st_size and not list(self.folder.glob("*.crdownload")))
        return path.read_bytes()


def settings(page):
    """The page's record is what the reference fills, and its totals are those of the command line, for each setting."""
    for study, law, more in SETTINGS:
        page.open(study=study, law=law, **more)
        shown, got, base = page.text("last").splitlines(), page.download("record"), Record((ROOT / f"examples/{BASES[study]}.rec").read_bytes())
        want, lanes = page.folder / "want.rec", []
        want.write_bytes(base.scaled(more.get("load", 100)))
        if "works" in more:
            page.download("lanes")
            lanes = [page.folder / "lanes.txt"]
        if law != "record":
            (page.folder / "laws.txt").write_text(laws_text(base, study, law, more))
            want.write_bytes(output(REFERENCE, "fill", want, page.folder / "laws.txt", *lanes))
        assert got == want.read_bytes(), f"{study}, {law}, {more}: the page's record is not the reference's"
        printed = output(REFERENCE, "run", want, *lanes) if lanes else output(CTM, given=got)
        assert printed.decode().splitlines()[-len(shown) :] == shown, f"{study}, {law}, {more}: {shown}"
        if not lanes:
            assert page.download("listing") == printed, f"{study}, {law}, {more}: the listing is not ctm's"
        # the table's hours are those of the last line, and the drawn curve ends at the engine's count
        total = int(re.match(r"total (\d+)", shown[0])[1])
        hours = total / 1000 if study == "printed" else total * (base.seconds or 36) / 3.6e6
        assert f"{hours:,.1f}" in page.text("totals"), f"{study}, {law}, {more}: {page.text('totals')}"
        assert page["curves"].get_attribute("data-left") == page["curves"].get_attribute("data-exits")


def sliders(page):
    """Each slider moves the totals, and the address keeps it."""
    page.open(**{"study": "rocade", "law": "fixed", "works": 2, "from": 60, "to": 150})
    for name in ("load", "works", "cell", "to", "all", "ramp-7"):
        before = page.text("last")
        page[name].send_keys(Keys.ARROW_LEFT)
        assert page.text("last") != before, f"the slider {name} moves nothing"
    after = page.text("last")
    page.go(page.driver.current_url)
    assert page.text("last") == after, "the address doesn't hold the setting"
    page["reset"].click()
    assert page.text("last") != after and "ramp-7" not in page.driver.current_url
    page.open(study="rocade", law="alinea")
    before = page.text("last")
    page["gain"].send_keys(Keys.ARROW_RIGHT)
    assert page.text("last") != before
    page.open(**{"study": "rocade", "law": "open", "w-gate": 2})
    gate, total = (int(re.search(rf"{key} (\d+)", page.text("last"))[1]) for key in ("gate", "total"))
    assert page["weighed"].get_attribute("data-weighted") == str(gate + total), "the gate's weight 2 counts its time twice"
    assert "no schedule" in page.text("weighed-promise")
    page.open(**{"study": "rocade", "law": "open", "w-last": 3})
    assert "nothing is promised" in page.text("weighed-promise")


def verdicts(page):
    """Who gains and who pays, and what the wrong total would show; the links to try."""
    page.open()
    for number in range(len(page.driver.find_elements(By.CSS_SELECTOR, "#tries a"))):
        before = page.text("last")
        page.driver.find_elements(By.CSS_SELECTOR, "#tries a")[number].click()
        page.until(lambda: page.text("last") != before or "Weighted" in page.text("weighed-box"), "another setting")
    assert page.text("last") == "total 33098 gate 6532 road 20866 ramp 5700 exits 3701"
    page.open(study="rocade", law="alinea")
    assert "Together it is a gain" in page.text("verdict") and "at the ramps (+" in page.text("verdict")
    page.open(study="rocade", law="fixed", **{f"ramp-{c}": 630 for c in RAMPS["rocade"]})
    page["open-box"].click()
    page.until(lambda: "times its critical" in page["map-open"].get_attribute("aria-label"), "the picture with open meters")
    assert page["map-open"].get_attribute("aria-label") != page["map"].get_attribute("aria-label")
    assert "Together it is a loss" in page.text("verdict") and "would look like a gain" in page.text("verdict"), page.text("verdict")


def records(page):
    """Own records are run as ctm runs them, or refused with a message; the address keeps short ones."""
    rows = [line.split("\t") for line in (ROOT / "docs/refusals.tsv").read_text().splitlines()]
    words = {number: text for number, _, operations, _, text, *_ in rows if "run" in operations.split(", ")}
    page.open(study="printed")
    for path in sorted((ROOT / "examples").glob("*.rec")):
        page["file"].send_keys(str(path))
        printed = output(CTM, given=path.read_bytes()).decode().splitlines()
        if printed[0].startswith("refused"):
            number = printed[0].split()[1]
            page.until(lambda: page.text("refused").startswith(f"Refused {number}: ") and words[number] in page.text("refused"), path.name)
            assert not page["shown"].is_displayed()
        else:
            page.until(lambda: page.text("last").splitlines() == printed[-1 - printed[-1].startswith("seconds") :], path.name)
            assert page["shown"].is_displayed()
    # dropped on the page, and then in its address
    page.open(study="rocade")
    page.drop("printed-run.rec", (ROOT / "examples/printed-run.rec").read_bytes())
    page.until(lambda: page.text("last").startswith("total 33098 "))
    page.go(page.driver.current_url)
    assert page.text("last").startswith("total 33098 "), "the address keeps a short record"
    page.open(study="own")
    assert page.text("refused").startswith("Choose a record first"), "a link whose record is too long says what is missing"
    page.open(study="rocade", law="record", load=90)
    assert page.text("refused").startswith("Refused 9: step ") and page.text("refused").endswith("choose a meter law."), page.text("refused")
    page["file"].send_keys(str(ROOT / "examples/printed-run.rec"))
    page.until(lambda: page.text("last").startswith("total 33098 "))
    # as an exercise, within its limits
    page["mode-exercise"].click()
    page["own"].click()
    assert page.text("sheet-name") == "Own record: 2 cells, 3 steps"
    assert not any(page[name].is_displayed() for name in ("seed", "cells", "steps")), "with a record, the controls that draw a road are hidden"
    page["mode-study"].click()
    page["file"].send_keys(str(ROOT / "examples/rocade-sud.rec"))
    page.until(lambda: page.text("last").startswith("total 294407512 "))
    page["mode-exercise"].click()
    assert page.text("exercise-refused").startswith("Refused 26: "), page.text("exercise-refused")


def no_records(page):
    """A file that is not a record gives a message that says what to do, in each language and in both views. So does a link that was cut."""
    toml, record = (ROOT / "examples/studies/five-cells.toml").read_bytes(), (ROOT / "examples/printed-run.rec").read_bytes()
    cases = [("a road.toml", toml, "study (TOML)", "convert 'a road.toml' 'a road.rec'"), ("arrivals.CSV", b"time,gate\n", "table (CSV)", "convert road.toml road.rec"),
             ("it's.txt", b"cell v 1\n", "is a text", r"reference record 'it'\''s.txt' 'it'\''s.rec'"), ("empty.toml", b"", "study (TOML)", "convert empty.toml empty.rec"),
             ("report.pdf", b"%PDF-1.7", "is not a record", "convert road.toml road.rec"), ("named.rec", toml, "is not a record", ".rec files"), ("noname", toml, "is not a record", "")]
    for mode, box in (("study", "refused"), ("exercise", "exercise-refused")):
        for name, data, kind, does in cases:
            page.open(study="rocade", mode=mode)
            page.drop(name, data)
            page.until(lambda: kind in page.text(box), f"{name} named in {mode}")
            assert page.text(box).startswith(name) and does in page.text(box) and not page["shown" if mode == "study" else "sheet"].is_displayed(), page.text(box)
            page.drop("printed-run.rec", record)  # a record still works after it
            page.until(lambda: not page[box].is_displayed() and page["shown" if mode == "study" else "sheet"].is_displayed(), f"a record after {name}")
    for lang, words in (("de", "ist eine Studie"), ("fr", "est une étude")):
        page.open(lang=lang)
        page.drop("road.toml", toml)
        page.until(lambda: words in page.text("refused") and "./nobyaluk convert road.toml road.rec" in page.text("refused"), words)
    page.open(mode="exercise")
    page.drop("road.toml", toml)
    page.until(lambda: "study (TOML)" in page.text("exercise-refused"))
    page["next"].click()  # another road continues without it
    assert page["sheet"].is_displayed()
    whole = base64.urlsafe_b64encode(record).decode().rstrip("=")
    for cut in (1, 2, 3, 4, 50, len(whole) - 6):
        left = len(base64.urlsafe_b64decode((whole[:-cut] if (len(whole) - cut) % 4 != 1 else whole[: -cut - 1]) + "==="))
        for mode, box in (("study", "refused"), ("exercise", "exercise-refused")):
            page.open(study="own", own=1, mode=mode, rec=whole[:-cut])
            assert page.text(box).startswith(f"This link is cut short: it holds {left} of the 124 bytes"), page.text(box)
    for broken in ("AA", "!!", whole.replace("A", "*", 1), "%", "_" + whole[1:]):
        page.open(study="own", rec=broken)
        assert page.text("refused").startswith("The record in this link can’t be read"), page.text("refused")
    for lang, words in (("de", "ist abgeschnitten"), ("fr", "est tronqué")):
        page.open(lang=lang, study="own", rec=whole[:-9])
        assert words in page.text("refused")
    page.open(study="own", rec=whole)
    assert page.text("last").startswith("total 33098 ")


def addresses(page):
    """The page works with any address: names that every object of JavaScript has are neither studies nor languages."""
    page.open()
    first = page.text("last")
    for word in ("constructor", "toString", "__proto__", "hasOwnProperty", "valueOf", "", "%00", "%F0%9F%92%A1", "<b>"):
        for key in ("study", "lang", "law", "mode", "rec", "seed", "load", "cell", "ramp-4"):
            page.open(**{key: word})
            assert page.text("last") == first or key in ("load", "cell", "ramp-4", "rec"), f"{key}={word}"
            assert page.driver.find_element(By.TAG_NAME, "h1").text == "Whose waiting does the total count?", f"{key}={word}"


def policy(page):
    """The page allows only its own script and style, identified by checksums; no handler and no connection."""
    content = re.search(r'Content-Security-Policy" content="([^"]*)"', PAGE.read_text())[1]
    assert "unsafe-inline" not in content and len(re.findall(r"'sha256-[A-Za-z0-9+/]{43}='", content)) == 2, content
    page.open()
    page.driver.execute_script(
        "window.broken = []; document.addEventListener('securitypolicyviolation', (e) => broken.push(e.effectiveDirective));"
        "const add = (tag, text, more = {}) => { const x = document.createElement(tag); x.textContent = text; for (const k in more) x.setAttribute(k, more[k]); document.body.append(x); return x; };"
        "add('script', 'window.ran = 1'); add('style', 'h1 { color: rgb(1, 2, 3) }'); add('button', '', { onclick: 'window.ran = 2' }).click();"
        "add('p', 'x', { style: 'color: rgb(1, 2, 3)', id: 'styled' }); fetch('https://example.org/').catch(() => {}); add('img', '', { src: 'https://example.org/x.png' });")
    page.until(lambda: len(set(page.driver.execute_script("return broken"))) >= 6, "six kinds of violation")
    assert page.driver.execute_script("return window.ran") is None
    for where in ("h1", "#styled"):
        assert "rgb(1, 2, 3)" not in page.driver.execute_script("return getComputedStyle(document.querySelector(arguments[0])).color", where)
    page.driver.get_log("browser")  # empties the log, which has these violations


def gate(page):
    """The step of arrival at the gate is shown separately and is in no queue; counts have the right words in each language."""
    for study in BASES:
        page.open(study=study, law="record")
        record = Record((ROOT / f"examples/{BASES[study]}.rec").read_bytes())
        came = record.rows()[:: 1 + 2 * record.n]
        total = sum(came) / 1000 if study == "printed" else sum(came) * (record.seconds or 36) / 3.6e6
        assert f"of it arriving {total:,.1f}" in page.text("totals"), f"{study}: {page.text('totals')}"
        queue = [int(x.split()[3]) for x in output(CTM, given=bytes(record.data)).decode().splitlines() if re.match(r"\d+ 0 ", x)]
        start = struct.unpack(">I", record.data[record.header - 4 :][:4])[0]
        longest = max(start, *(q - a for q, a in zip(queue, came))) / 1000
        digits = 0 if record.seconds or study == "classroom" else 1
        assert f"gate (at most {longest:,.{digits}f})" in page.text("queues-legend"), f"{study}: {longest} {page.text('queues-legend')}"
    one = struct.pack(">IBBHII4H4I3I", 48, 1, 1, 1, 1000, 0, 500, 250, 0, 1, 8000, 1000, 0, 0, 0, 0, 0)
    for lang, words, bare in (("en", "1 cell, 1 step of unstated length, 1 on-ramp", "no on-ramp"), ("de", "1 Zelle, 1 Schritt ohne angegebene Dauer, 1 Auffahrt", "keine Auffahrt"),
                             ("fr", "1 cellule, 1 pas de durée non précisée, 1 rampe d’accès", "aucune rampe d’accès")):
        page.open(lang=lang, study="own", rec=base64.urlsafe_b64encode(one).decode().rstrip("="))
        assert page.text("shape") == words, page.text("shape")
        page.open(lang=lang, study="classroom")
        assert page.text("shape").endswith(bare), page.text("shape")


def exercise(page):
    """The key is accepted, a plan that holds traffic back costs more, and one part too much is named. The exercise keeps its limits."""
    for seed, cells, steps in ((1, 2, 3), (2026, 3, 4), (77, 8, 12)):
        page.open(mode="exercise", seed=seed, cells=cells, steps=steps)
        record = page.download("exercise-record")
        assert len(record) <= 4096 and record[5] == cells, "an exercise keeps its limits"
        arrivals, _ = stated_load(stated_load(seed, 999, 96)[1], 1500, steps)
        assert list(Record(record).rows()[:: 1 + 2 * cells]) == arrivals, "the gate's arrivals are the stated load"
        key = [int(line.split()[2]) for line in output(CTM, given=record).decode().splitlines()[1:-1]]
        fields = page.driver.find_elements(By.CSS_SELECTOR, "#grid input")

        def judged(plan):
            page.driver.execute_script("arguments[0].forEach((x, i) => { x.value = arguments[1][i]; })", fields, plan)
            page["judge"].click()
            return page.text("judged")

        if seed == 1:  # by the keyboard, as a student does
            for field, x in zip(fields, key):
                field.send_keys(str(x))
            fields[-1].send_keys(Keys.ENTER)
            assert "no plan costs less" in page.text("judged"), page.text("judged")
        assert "no plan costs less" in judged(key), page.text("judged")
        assert "may be at most" not in page.text("judged-more")
        assert re.match(r"Refused 1[34]: step 0, gate", judged([key[0] + 1, *key[1:]])), page.text("judged")
        assert f"may be at most {key[0]:,}" in page.text("judged-more")
        assert judged([*key[:-1], key[-1] + 1]).startswith(f"Refused 13: step {steps - 1}, cell {cells}: "), page.text("judged")
        assert page.text("judged-more") == f"You wrote {key[-1] + 1:,}; in this state it may be at most {key[-1]:,}."
        (page.folder / "plan.txt").write_text("\n".join(map(str, [*key[:-1], 0])))
        (page.folder / "exercise.rec").write_bytes(record)
        printed = output(REFERENCE, "judge", page.folder / "exercise.rec", page.folder / "plan.txt").decode()
        total = int(re.search(r"total (\d+)", printed)[1])
        assert f"costs {total / 1000:,.3f} vehicle-steps" in judged([*key[:-1], 0]), f"{printed}{page.text('judged')}"
        assert "is not a whole number" in judged([1.5, *key[1:]]) and "no plan costs less" in judged([f"{x:,}" for x in key])
        assert "Right up to step 0" in judged([*key[: cells + 1], *[""] * (len(key) - cells - 1)])


def all_ramps(cells, steps):
    """A record of version 2 with an on-ramp at each cell and numbers of six digits: the widest exercise of this many cells."""
    size, rows = 18 + 24 * cells + steps * (4 + 8 * cells), [[150000, *[40000, 30000] * cells]] * steps
    road = b"".join(struct.pack(">4H4I", 500, 250, 0 if i == cells else 900, 1, 800000, 200000, 110000, 120000) for i in range(1, cells + 1))
    return struct.pack(">IBBHHII", size - 4, 2, cells, steps, 30, 200000, 130000) + road + b"".join(struct.pack(f">{len(row)}I", *row) for row in rows)


def in_link(record):
    return base64.urlsafe_b64encode(record).decode().rstrip("=")


def paper(page):
    """The printed sheet has the question, its title, a line for the name, ramps' names, seconds and every field. Only the key has the engine's numbers."""
    record = all_ramps(4, 6)
    page.open(mode="exercise", own=1, rec=in_link(record), title="Question four", names="Harbour,,Mill Street")
    page.driver.execute_script("window.print = () => {}")
    lines = output(CTM, given=record).decode().splitlines()
    listed, total = [line.split() for line in lines[1:-2]], re.match(r"total (\d+) gate (\d+) road (\d+) ramp (\d+)", lines[-2]).groups()
    numbers = {f"{int(x):,}" for x in (*total, *(x for line in listed for x in line[2:]))}
    given = {f"{x:,}" for x in (*Record(record).rows(), 200000, 130000, 800000, 110000, 120000, 500, 250, 900, 0)}
    asked = ["Compute the total time spent, and state whose waiting it counts.", "4 cells, 6 steps of 30 s", "ramp Harbour", "ramp 2", "ramp Mill Street",
             "at the gate", "on the road", "at the ramps", "Total time spent", "Whose waiting does this total count?"]
    page["print-sheet"].click()
    sheet = page.script("document.getElementById('paper').textContent").replace("\u00a0", " ")
    cells = page.script("[...document.querySelectorAll('#paper td, #paper th')].map((x) => x.textContent)")
    assert sheet.startswith("Question four") and all(x in sheet for x in ("Name", *asked)), sheet
    assert not [x for x in cells if x in numbers - given], "the sheet has numbers of the run"
    assert not re.search("everyone|in the system|[Kk]ey|Seed|record", sheet), "the sheet gives the answer away"
    blank = page.script("document.querySelectorAll('#paper table.fill td, #paper .sum-fields td').length")
    assert blank == 6 * (5 + 5 + 4) + 4 and page.script("document.querySelectorAll('#paper .name span, #paper .line').length") == 3
    page["print-key"].click()
    key = page.script("document.getElementById('paper').textContent").replace("\u00a0", " ")
    cells = page.script("[...document.querySelectorAll('#paper td')].map((x) => x.textContent)")
    for lang in ("en", "de", "fr"):  # the widest exercise, on paper of A4 between margins of 15 mm
        page.open(lang=lang, mode="exercise", own=1, rec=in_link(all_ramps(8, 12)))
        page.driver.execute_script("window.print = () => {}")
        page["print-sheet"].click()
        page.driver.execute_cdp_cmd("Emulation.setEmulatedMedia", {"media": "print"})
        page.size(680)
        wide = page.script("[...document.querySelectorAll('#paper table')].map((x) => x.getBoundingClientRect().right)")
        page.driver.execute_cdp_cmd("Emulation.setEmulatedMedia", {"media": ""})
        page.driver.execute_cdp_cmd("Emulation.clearDeviceMetricsOverride", {})
        assert len(wide) == 7 and max(wide) <= 680, f"{lang}: tables end at {wide} of 680 px"
    assert key.startswith("Question four: key") and all(x in key for x in asked) and "That of everyone in the system" in key and numbers <= {*cells, "0"}, numbers - {*cells}


def graded(page):
    """A graded link has the exercise and fields for every answer, but no key, no hint and no check. Its file has what was typed."""
    with open(ROOT / "bindings/wasm/texts.tsv", encoding="utf-8", newline="") as f:
        words = {row["key"]: row for row in csv.DictReader(f, delimiter="\t", quoting=csv.QUOTE_NONE)}
    hints = [key for key in words if re.match(r"judged|whose\.key|key\.|wrong|says|try|states\.show|judge$|sheet\.keyed|refused", key)]
    record = (ROOT / "examples/printed-run.rec").read_bytes()
    page.open(mode="exercise", own=1, rec=in_link(record), title="Question four", names="Mill Street")
    mine = {form: page.link(f"link-{form}") for form in ("practice", "graded")}
    page.open(mode="exercise", seed=2026, cells=3, steps=4)
    drawn = {form: page.link(f"link-{form}") for form in ("practice", "graded")}
    drawn_record = page.download("exercise-record")
    for links, exercise, seed in ((mine, record, None), (drawn, drawn_record, 2026)):
        page.go(links["practice"])
        assert page["judge"].is_displayed() and page["print-key"].is_displayed() and page.download("exercise-record") == exercise
        for lang in ("de", "fr", "en"):
            page.go(re.sub(r"lang=\w+", f"lang={lang}", links["graded"]))
            dom = page.script("document.documentElement.outerHTML").replace("\u00a0", " ").replace("&nbsp;", " ")
            for key in hints:
                for part in re.split(r"\{\w+\}", words[key][lang]):
                    assert len(part) < 10 or part.replace("\u202f", " ") not in dom, f"{lang}: {key} is in the graded page: {part}"
            for name in ("judge", "judged", "judged-more", "print-key", "show", "exercise-record", "view-study", "seed", "file", "mode-study"):
                assert not page.driver.find_elements(By.ID, name), f"the graded page has {name}"
        e = output(CTM, given=exercise).decode().splitlines()
        total = re.match(r"total (\d+) gate (\d+) road (\d+) ramp (\d+)", e[-1]).groups()
        assert not any(x in dom or f"{int(x):,}" in dom for x in total), "the solution is in the graded page"
        assert "Compute the total time spent, and state whose waiting it counts." in dom
        # the key typed as a student types it, by the listing's own columns
        road, listed = Record(exercise), [[int(x) for x in line.split()] for line in e[1:-1]]
        w, ramps = road.n + 1, [i for i in range(1, road.n + 1) if struct.unpack(">H", road.data[road.header + 24 * (i - 1) + 6 :][:2])[0]]
        steps = [listed[k * w : (k + 1) * w] for k in range(road.steps)]
        want = {"outflows": [[x[2] for x in step] for step in steps], "held": [[x[3] for x in step] for step in steps], "queue": [[step[i][4] for i in ramps] for step in steps]}
        empty = json.loads(page.download("answers"))
        assert {x for key in want for row in empty[key] for x in row} == {None} and empty["total"] is None and empty["whose"] == "", empty
        assert "Empty fields: " in page.text("saved")
        typed = [str(x) for k in range(road.steps) for key in ("outflows", "held", "queue") for x in want[key][k]]
        fields = page.driver.find_elements(By.CSS_SELECTOR, "#grid input")
        assert len(fields) == len(typed)
        page.driver.execute_script("arguments[0].forEach((x, i) => { x.value = arguments[1][i]; })", fields, typed)
        for name, x in zip(("time-total", "time-gate", "time-road"), total):
            page[name].send_keys(f"{int(x):,}")
        page["time-ramp"].send_keys("12.5")
        page["name"].send_keys("Zoë O’Neill")
        page["whose"].send_keys("everyone’s")
        page["lang"].find_element(By.CSS_SELECTOR, "[value=de]").click()  # what is typed stays
        saved = json.loads(page.download("answers"))
        assert page["answers"].get_attribute("download") == "answers-zoë-o-neill.json" and "Keine ganze Zahl: 12.5." in page.text("saved"), page.text("saved")
        assert {key: saved.pop(key) for key in want} == want, "the file has other answers than were typed"
        shape = {"record": base64.b64encode(exercise).decode(), "seed": seed, "cells": road.n, "steps": road.steps}
        assert saved == {"format": "nobyaluk-answers", "version": 1, "exercise": shape, "name": "Zoë O’Neill", "total": int(total[0]), "gate": int(total[1]),
                         "road": int(total[2]), "ramp": "12.5", "whose": "everyone’s"}, saved
        marked(page, exercise, seed, total)
    page.drop("road.toml", b"title = 1")  # a file dropped on it changes nothing
    assert page["sheet"].is_displayed() and page["name"].get_attribute("value") == "Zoë O’Neill"
    page.open(mode="graded", rec=in_link(record)[:-9])
    assert page.text("exercise-refused").startswith("This link is cut short") and not page["sheet"].is_displayed()
    page.driver.execute_script("location.hash = 'lang=en&mode=exercise'")  # the same tab opens another link
    page.until(lambda: page.driver.find_elements(By.ID, "judge") and page["judge"].is_displayed(), "the practice form")


def marked(page, exercise, seed, total):
    """The saved file is marked: against the exercise, and in a class of the same seed with a second student."""
    folder, file = page.folder / f"class-{seed}", page.folder / "answers-zoë-o-neill.json"
    (page.folder / "exercise.rec").write_bytes(exercise)
    (page.folder / "names.txt").write_text("Zoë O’Neill\nBen\n")
    of = ["--seed", seed, "--cells", 3, "--steps", 4] if seed is not None else [page.folder / "exercise.rec"]
    nobyaluk("exercise", *of, "--students", page.folder / "names.txt", "-o", folder, "--no-pdf", "--force")
    for against in (page.folder / "exercise.rec", folder):
        nobyaluk("mark", against, file, "-o", page.folder / "marks")
        with open(page.folder / "marks.csv", encoding="utf-8", newline="") as f:
            row = next(row for row in csv.DictReader(f) if row["student"] == "Zoë O’Neill")
        marks = [row[key] for key in ("outflows", "states", "gate time", "road time", "ramp time", "total given", "total", "whose waiting, as written", "notes")]
        assert marks == ["right", "follow from its outflows", "right", "right", f"12.5, not {total[3]}", total[0], "right", "everyone’s",
                        "the page asks for whole thousandths of a vehicle; marked as typed: 12.5"], row


def nobyaluk(*words):
    """A command of ./nobyaluk, by this Python."""
    path, library = str(ROOT / "bindings/python"), str(ROOT / "target/bindings/libnobyaluk.so")
    subprocess.run([sys.executable, "-m", "nobyaluk", *(str(x) for x in words)], check=True, stdout=subprocess.DEVNULL,
                   env={**os.environ, "PYTHONPATH": path, "NOBYALUK_LIBRARY": library, "PYTHONDONTWRITEBYTECODE": "1"})


def widths(page):
    """Four cells fit a screen of 1280 px, eight visibly continue beyond it; a telephone shows every column of the totals."""
    over = "((x) => x.scrollWidth - x.clientWidth)(document.querySelector('#grid').parentElement)"
    edge = "document.querySelector('#grid').parentElement.parentElement.className"
    for mode in ("exercise", "graded"):
        for lang in ("en", "de", "fr"):
            page.size(1280)
            record = all_ramps(4, 6)
            page.open(lang=lang, mode=mode, own=1, rec=in_link(record))
            if mode == "exercise":  # with every state shown
                key = [line.split()[2] for line in output(CTM, given=record).decode().splitlines()[1:-2]]
                page.driver.execute_script("document.querySelectorAll('#grid input').forEach((x, i) => { x.value = arguments[0][i]; })", key)
                page["judge"].click()
            assert page.script(over) <= 0 and page.script(edge) == "edge", f"{mode}, {lang}: four cells are {page.script(over)} px too wide"
            page.open(lang=lang, mode=mode, own=1, rec=in_link(all_ramps(8, 6)))
            assert page.script(over) > 0 and "more" in page.script(edge), f"{mode}, {lang}: eight cells don't show that they go on"
            page.driver.execute_script("document.querySelector('#grid').parentElement.scrollLeft = 9999")
            page.until(lambda: page.script(edge) == "edge less", "the other edge")
    for lang in ("en", "de", "fr"):
        page.size(390)
        page.open(lang=lang, study="rocade", law="alinea")
        last = page.script("((x) => [x.textContent, x.getBoundingClientRect().right, x.closest('.wide').getBoundingClientRect().right])"
                           "(document.querySelector('#totals tr.sum td:last-child'))")
        assert re.match(r"^[+−±][\d.,]+$", last[0]) and 0 < last[1] <= last[2], f"{lang}: the column % is not visible: {last}"
        cut = page.script("[...document.querySelectorAll('.bar > div')].filter((x) => x.textContent && x.scrollWidth > x.clientWidth).map((x) => x.textContent)")
        assert not cut, f"{lang}: {cut} run over their bars"
        assert {"en": "cells alone", "de": "nur die Zellen", "fr": "cellules seules"}[lang] in page.text("bars")
    page.driver.execute_cdp_cmd("Emulation.clearDeviceMetricsOverride", {})


def languages(page):
    """Every text is there in each language, and a telephone scrolls nothing sideways."""
    for lang in ("de", "fr", "en"):
        for mode in ("study", "exercise", "graded"):
            page.open(lang=lang, mode=mode, study="rocade", law="alinea", works=1, cells=8)
            shown = page.driver.find_element(By.TAG_NAME, "body").text
            assert "{" not in shown and "undefined" not in shown and "NaN" not in shown, lang
            assert mode == "graded" or f"Nobyaluk {VERSION}" in shown, f"{lang}, {mode}: the page does not say its version"
            unnamed = page.driver.execute_script(
                "return [...document.querySelectorAll('input, select, button, canvas')].filter((x) => !(x.labels?.length && x.labels[0].textContent.trim())"
                " && !x.getAttribute('aria-label') && !(x.tagName === 'BUTTON' && x.textContent.trim()) && !x.closest('[hidden]')).map((x) => x.id)")
            assert not unnamed, f"{lang}, {mode}: {unnamed} have no name"
            chooser = {"en": "Choose a file", "de": "Datei wählen", "fr": "Choisir un fichier"}[lang]
            assert mode == "graded" or (chooser in shown and not page["file"].is_displayed()), "the chooser is in another language"
            spaced = page.script("document.body.innerText")
            alone = re.findall(r".*\d %.*" if lang != "fr" else r".*(?:\d %| [:;?!»]|« |[^\s\d/]:\s).*", spaced)
            assert not alone, f"{lang}, {mode}: a mark or unit has the wrong space before it: {alone}"
            page.driver.execute_cdp_cmd("Emulation.setDeviceMetricsOverride", {"width": 360, "height": 740, "deviceScaleFactor": 1, "mobile": True})
            assert page.driver.execute_script("return document.documentElement.scrollWidth") <= 360, f"{lang}, {mode}: wider than a telephone"
            page.driver.execute_cdp_cmd("Emulation.clearDeviceMetricsOverride", {})


def modules(page):
    """The separate modules, from a server and not in one script: each imports what it uses, so the page is ready and shows the same run."""
    folder = page.folder / "modules"
    folder.mkdir()
    for path in [*HERE.glob("*.js"), *HERE.glob("*.mjs")]:
        shutil.copy(path, folder)
    (folder / "data.mjs").write_text("export " + re.search(r"^const DATA = .*;$", PAGE.read_text(), re.M)[0])
    template = re.sub(r"<meta http-equiv[^>]*>", "", (HERE / "page.template.html").read_text())
    (folder / "index.html").write_text(re.sub(r"<script type=\"module\">.*?</script>", '<script type="module" src="main.js"></script>', template, flags=re.S))
    handler = functools.partial(Quiet, directory=str(folder))
    with http.server.ThreadingHTTPServer(("127.0.0.1", 0), handler) as server:
        threading.Thread(target=server.serve_forever, daemon=True).start()
        for form, ready in (("study", "last"), ("exercise", "sheet-name"), ("graded", "sheet-name")):
            page.driver.get("about:blank")
            page.driver.get(f"http://127.0.0.1:{server.server_port}/#lang=en&study=printed&mode={form}")
            page.until(lambda: page.script("'ready' in document.body.dataset"), f"the modules, {form}")
            assert page.text(ready), f"{form}: {ready} is empty"
        server.shutdown()
    page.driver.get("about:blank")
    page.driver.get_log("browser")  # empties the log: the server has no icon


def main():
    assert not re.search(r'(?:src|href)="(?!data:)', PAGE.read_text().split("<script")[0]), "the page loads something from elsewhere"
    with tempfile.TemporaryDirectory() as folder:
        page, began = Page(Path(folder)), time.time()
        try:
            for part in (settings, sliders, verdicts, records, no_records, addresses, policy, gate, exercise, paper, graded, widths, languages, modules):
                part(page)
                errors = page.driver.get_log("browser")
                assert not errors, f"{part.__name__}: the console shows {errors}"
        finally:
            page.driver.quit()
    print(f"page: in Chromium {len(SETTINGS)} settings, every example's record and three exercises agree with the command line ({time.time() - began:.0f} s)")


if __name__ == "__main__":
    sys.exit(main())
