#!/usr/bin/env python3
"""Measures the desk in a browser: milliseconds from the click on Run to the first board, seconds to the end of the run, beside the
program's own time over the same files, and memory.

    bench/desk.py ARCHIVE.. [--query TEXT] [--browsers chromium,firefox-esr] [--rounds N] [--scroll]

The browsers are driven over their own lines for it (Chromium's DevTools, Firefox's BiDi), without a window, so nothing beside Debian's
packages chromium, firefox-esr and python3-aiohttp is wanted. Each round has a page of its own; the median of the rounds is shown (3). With
--scroll the list is then scrolled to its end, its last game is opened, and a filter is asked. The programs are CQLPGN and PGNJSON, or those
that were built. The archives are of one folder, which is served, and only read."""

from __future__ import annotations

import argparse
import asyncio
import contextlib
import glob
import json
import os
import statistics
import subprocess
import sys
import tempfile
import time
from typing import Any

import aiohttp

TOP = os.path.join(os.path.dirname(os.path.realpath(__file__)), "..")
START = {
    "chromium": [
        "--headless=new",
        "--no-sandbox",
        "--disable-gpu",
        "--disable-dev-shm-usage",
        "--window-size=1280,900",
        "--user-data-dir={}",
    ],
    "firefox-esr": ["--headless", "--width", "1280", "--height", "900", "--profile", "{}"],
}
# Firefox asks nothing of others while it is measured
QUIET = "".join(
    f"user_pref('{name}', {value});\n"
    for name, value in {
        "app.normandy.enabled": "false",
        "app.update.auto": "false",
        "browser.shell.checkDefaultBrowser": "false",
        "datareporting.policy.dataSubmissionEnabled": "false",
        "network.captive-portal-service.enabled": "false",
        "services.settings.server": "'data:,'",
        "toolkit.telemetry.enabled": "false",
    }.items()
)
READY = "!!document.querySelector('.CodeMirror')"
ASK = """(() => {
  for (const box of document.querySelectorAll("#archives input")) if (box.checked !== %r.includes(box.value)) box.click();
  document.querySelector(".CodeMirror").CodeMirror.setValue(%r);
  return new Promise(well => setTimeout(well, 1500, true));
})()"""
CLICK = """new Promise(well => {
  const id = n => document.getElementById(n), begun = performance.now();
  let first = 0, longest = 0, last = begun;
  id("run").click();
  const look = () => {
    const now = performance.now();
    longest = Math.max(longest, now - last);
    last = now;
    if (!first && document.querySelector("#found figure svg")) requestAnimationFrame(() => { first = performance.now() - begun; });
    const isOver = first && id("progress").hidden && id("run").textContent === "Run";
    if (isOver) well([first, now - begun, longest, id("sum").textContent].join("|")); else setTimeout(look, 4);
  };
  setTimeout(look, 4);
})"""
SCROLL = """(async () => {
  const list = document.getElementById("list"), begun = performance.now(), wait = async told => {
    while (!told()) await new Promise(well => setTimeout(well, 4));
  };
  const total = Number(document.getElementById("count").textContent.replaceAll(",", ""));
  const height = list.scrollHeight;
  list.scrollTop = height;
  const row = () => [...document.querySelectorAll(".row")].find(r => Number(r.dataset.place) === total - 1);
  await wait(row);
  const at = performance.now();
  row().click();
  await wait(() => document.querySelector(`article[data-place="${total - 1}"] figure svg`));
  const shown = performance.now(), filter = document.getElementById("filter");
  filter.value = "kasparov";
  filter.dispatchEvent(new Event("input"));
  await wait(() => /of/.test(document.getElementById("left").textContent));
  const left = document.getElementById("left").textContent;  // the page itself waits 250 ms for a next key
  return [at - begun, shown - at, performance.now() - shown - 250, left, height].join("|");
})()"""


class Failed(Exception):
    """What a browser says that it can't do."""


class Browser:
    """A browser and a page in it, driven over a WebSocket: `call` sends a message and gives its answer."""

    def __init__(self, name: str, profile: str) -> None:
        words = [word.replace("{}", profile) for word in START[name]]
        self.name, self.profile, self.number, self.page, self.target = name, profile, 0, "", ""
        with open(os.path.join(profile, "user.js"), "w", encoding="ascii") as file:
            file.write(QUIET)
        call = [name, *words, "--remote-debugging-port=0", "about:blank"]
        self.process = subprocess.Popen(call, stdout=subprocess.DEVNULL, stderr=subprocess.DEVNULL)

    def _address(self) -> str:
        """Where it listens, as it writes into its profile once it does."""
        if self.name == "chromium":
            with open(os.path.join(self.profile, "DevToolsActivePort"), encoding="ascii") as file:
                port, path = file.read().split()
        else:
            with open(os.path.join(self.profile, "WebDriverBiDiServer.json"), encoding="ascii") as file:
                port, path = json.load(file)["ws_port"], "/session"
        return f"ws://127.0.0.1:{port}{path}"

    async def open(self, http: aiohttp.ClientSession) -> None:
        address = ""
        while not address:
            with contextlib.suppress(OSError, ValueError):
                address = self._address()
            await asyncio.sleep(0.1)
        self.socket = await http.ws_connect(address, max_msg_size=1 << 26)
        if self.name != "chromium":
            await self.call("session.new", capabilities={})

    async def call(self, method: str, **words: Any) -> Any:
        self.number += 1
        session = {"sessionId": self.page} if self.name == "chromium" and self.page else {}
        await self.socket.send_json({"id": self.number, "method": method, "params": words, **session})
        while (answer := await self.socket.receive_json()).get("id") != self.number:
            pass
        if "error" in answer:
            raise Failed(f"{self.name}: {answer}")
        return answer["result"]

    async def go(self, address: str) -> None:
        """A page of its own at the address; the former one is closed."""
        former, self.page = self.page, ""
        if self.name == "chromium":
            if former:
                await self.call("Target.closeTarget", targetId=self.target)
            self.target = (await self.call("Target.createTarget", url=address))["targetId"]
            self.page = (await self.call("Target.attachToTarget", targetId=self.target, flatten=True))["sessionId"]
        else:
            made = (await self.call("browsingContext.create", type="tab"))["context"]
            if former:
                await self.call("browsingContext.close", context=former)
            self.page = made
            await self.call("browsingContext.navigate", context=made, url=address, wait="complete")
        while not await self.is_there():
            await asyncio.sleep(0.1)

    async def is_there(self) -> bool:
        with contextlib.suppress(Failed):  # as of a page that is only coming
            return await self.run(READY) is True
        return False

    async def run(self, script: str) -> Any:
        """What a script gives in the page, once its promise is kept."""
        if self.name == "chromium":
            answer = await self.call("Runtime.evaluate", expression=script, awaitPromise=True, returnByValue=True)
        else:
            answer = await self.call("script.evaluate", expression=script, awaitPromise=True, target={"context": self.page})
        if "exceptionDetails" in answer:
            raise Failed(f"{self.name}: {answer['exceptionDetails']}")
        return answer["result"].get("value")

    def close(self) -> None:
        self.process.terminate()
        self.process.wait()


def memory(process: int, field: str) -> float:
    """A size of a process in MB."""
    with open(f"/proc/{process}/{'smaps_rollup' if field == 'Pss' else 'status'}", encoding="ascii") as file:
        return next(int(line.split()[1]) / 1024 for line in file if line.startswith(field + ":"))


def below(process: int) -> list[int]:
    """What a process has started, and what that has, and so on."""
    found = [process]
    for number in found:
        for thread in glob.glob(f"/proc/{number}/task/*/children"):
            with contextlib.suppress(OSError), open(thread, encoding="ascii") as file:
                found += map(int, file.read().split())
    return found[1:]


def tab(browser: Browser) -> float:
    """The largest of the processes that a browser has started, in MB of its own: that of the page."""
    sizes = [0.0]
    for process in below(browser.process.pid):
        with contextlib.suppress(OSError, StopIteration):
            sizes.append(memory(process, "Pss"))
    return max(sizes)


def own_time(flags: argparse.Namespace) -> float:
    """The median of the seconds that the program alone needs, reading the files itself and writing to nobody."""
    times = []
    for _ in range(flags.rounds):
        begun = time.monotonic()
        for archive in flags.archives:
            call = [os.environ["CQLPGN"], "eval", flags.query, archive]
            subprocess.run(call, stdout=subprocess.DEVNULL, stderr=subprocess.DEVNULL, check=False)
        times.append(time.monotonic() - begun)
    return statistics.median(times)


async def once(browser: Browser, address: str, server: int, flags: argparse.Namespace) -> tuple[float, float]:
    """Asks the query in a page of its own: seconds to the first board, and to the end."""
    await browser.go(address)
    await browser.run(ASK % ([os.path.basename(archive) for archive in flags.archives], flags.query))
    before, load = tab(browser), os.getloadavg()[0]
    first, end, longest, told = (await browser.run(CLICK)).split("|")
    print(
        f"{browser.name}: first board {float(first):.0f} ms, end {float(end) / 1000:.2f} s, longest pause {float(longest):.0f} ms, {told};",
        f"server {memory(server, 'VmRSS'):.0f} MB, page {before:.0f} to {tab(browser):.0f} MB, load {load:.1f}",
    )
    return float(first) / 1000, float(end) / 1000


async def measured(browser: Browser, address: str, server: int, flags: argparse.Namespace, alone: float) -> None:
    """Asks the query as often as is wanted, and prints the medians."""
    times = [await once(browser, address, server, flags) for _ in range(flags.rounds)]
    if flags.scroll:
        far, shown, left, said, height = (await browser.run(SCROLL)).split("|")
        print(
            f"{browser.name}: end of the list {float(far):.0f} ms, its game {float(shown):.0f} ms, a filter {float(left):.0f} ms ({said});",
            f"the list is {height} pixels high, page {tab(browser):.0f} MB, server at most {memory(server, 'VmHWM'):.0f} MB",
        )
    first, end = (statistics.median(column) for column in zip(*times))
    print(
        f"{browser.name}, median of {flags.rounds}: first board {first * 1000:.0f} ms, end {end:.2f} s,",
        f"{end / alone:.2f} times the program's own {alone:.2f} s",
    )


async def main() -> None:
    made = argparse.ArgumentParser()
    made.add_argument("archives", nargs="+")
    made.add_argument("--query", default="cql() mate")
    made.add_argument("--browsers", default="chromium,firefox-esr")
    made.add_argument("--rounds", type=int, default=3)
    made.add_argument("--scroll", action="store_true")
    flags = made.parse_args()
    for variable, name in (("CQLPGN", "cqlpgn"), ("PGNJSON", "pgnjson")):
        os.environ.setdefault(variable, os.path.join(TOP, "crates", name, "out", name))
    command = [
        sys.executable,
        os.path.join(TOP, "python", "bin", "cqlpgn-desk"),
        "--no-browser",
        os.path.dirname(os.path.realpath(flags.archives[0])),
    ]
    desk = subprocess.Popen(command, stdout=subprocess.PIPE, text=True)
    assert desk.stdout is not None
    address = desk.stdout.readline().split()[-1]
    try:
        for name in flags.browsers.split(","):
            # beside each browser, as other work on the machine comes and goes
            alone = own_time(flags)
            with tempfile.TemporaryDirectory(ignore_cleanup_errors=True) as profile:
                browser = Browser(name, profile)
                try:
                    async with aiohttp.ClientSession() as http:
                        await browser.open(http)
                        await measured(browser, address, desk.pid, flags, alone)
                finally:
                    browser.close()
    finally:
        desk.terminate()
        desk.wait()


if __name__ == "__main__":
    asyncio.run(main())
