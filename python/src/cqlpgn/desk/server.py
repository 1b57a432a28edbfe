"""The server of the desk: who is let in, the files of the page, its line, and what is saved. It is for this machine and for its own page
alone."""

from __future__ import annotations

import asyncio
import contextlib
import hmac
import json
import os
import secrets
from collections.abc import Awaitable, Callable

from aiohttp import WSMsgType, web

from ..errors import NotFound
from ..page import own_file
from .door import admit
from .folder import Folder
from .pages import Page, Shared
from .program import Program
from .runs import told_of
from .saving import FORMS, saved

PACKAGE = os.path.dirname(os.path.dirname(os.path.realpath(__file__)))
STATIC = os.path.join(PACKAGE, "desk", "static")
EDITOR = os.environ.get("CODEMIRROR", "/usr/share/javascript/codemirror")
OWN = ("desk.js", "desk.css", "line.js", "editor.js", "results.js", "setting.js", "library.js", "cql.js", "sign.svg")
ADDONS = ("edit/matchbrackets.js", "edit/closebrackets.js", "mode/simple.js", "lint/lint.js", "hint/show-hint.js", "hint/show-hint.css")
POLICY = (
    "default-src 'none'; script-src 'self'; style-src 'self'; img-src 'self'; connect-src 'self' ws://{}; "
    "base-uri 'none'; form-action 'none'; frame-ancestors 'none'"
)
GRACE = 3.0  # seconds that a run goes on without its page, as when it is loaded again
KEPT = 600.0  # seconds that what was found is kept without its page
MOST_ASKED, MOST_PAGES, MOST_SAVED = 64, 200, 4
STRANGER = "This address is not the one that cqlpgn-desk has printed.\n"

Handler = Callable[[web.Request], Awaitable[web.StreamResponse]]


def files() -> dict[str, str]:
    """The files of the page by the names that it asks for; no such name is ever a path. Raises `NotFound` where the editor is not there."""
    found = {name: os.path.join(STATIC, name) for name in OWN}
    found |= {name: os.path.join(PACKAGE, name) for name in ("boards.js", "boards.css")}
    found |= {name: os.path.join(EDITOR, "lib", name) for name in ("codemirror.js", "codemirror.css")}
    found |= {os.path.basename(addon): os.path.join(EDITOR, "addon", addon) for addon in ADDONS}
    for path in found.values():
        if not os.access(path, os.R_OK):
            raise NotFound(f"{path} is not there: the editor is in Debian's package libjs-codemirror")
    return found


class Away:
    """The timers of a page that has no line."""

    def __init__(self, desk: Desk, page: Page) -> None:
        loop = asyncio.get_running_loop()
        self.timers = [
            loop.call_later(GRACE, lambda: desk.shared.keep(page.end())),
            loop.call_later(KEPT, lambda: desk.shared.keep(desk.forget(page))),
        ]

    def cancel(self) -> None:
        """The page has come back: nothing is ended."""
        for timer in self.timers:
            timer.cancel()


class Desk:
    """The server. `host` is what it is called by, once its port is known; `seen` is set when the first page has come."""

    def __init__(self, folder: str, program: str, most: int) -> None:
        self.shared = Shared(Folder(folder), Program(program), most)
        self.token, self.host, self.seen = secrets.token_urlsafe(24), "", asyncio.Event()
        self._pages: dict[str, Page] = {}
        self._away: dict[str, Away] = {}
        self._saving = asyncio.Semaphore(MOST_SAVED)
        self._files = files()
        self._library = json.loads(own_file("desk/words.json"))
        self._html = own_file("desk/static/desk.html").replace("@MEN@", own_file("men.svg"))

    def _is_own(self, request: web.Request) -> bool:
        """Whether a request is one of the desk's own page: by its token, the host's name and, where it must be or is there, the origin."""
        token = request.match_info.get("token", "")
        own = "http://" + self.host
        origin = request.headers.get("Origin", "" if request.path.endswith("/socket") else own)
        is_here = request.headers.getall("Host", []) == [self.host] and origin == own
        return is_here and hmac.compare_digest(token.encode("utf-8", "replace"), self.token.encode())

    async def _head(self, _request: web.Request, response: web.StreamResponse) -> None:
        response.headers["Content-Security-Policy"] = POLICY.format(self.host)
        response.headers["Cache-Control"] = "no-store"
        response.headers["Referrer-Policy"] = "no-referrer"
        response.headers["X-Content-Type-Options"] = "nosniff"
        response.headers["Cross-Origin-Resource-Policy"] = response.headers["Cross-Origin-Opener-Policy"] = "same-origin"

    async def _file(self, request: web.Request) -> web.StreamResponse:
        path = self._files.get(request.match_info["name"])
        if not path:
            raise web.HTTPNotFound()
        return web.FileResponse(path)

    async def _front(self, _request: web.Request) -> web.StreamResponse:
        return web.Response(text=self._html, content_type="text/html")

    async def _page(self, name: str, is_back: bool) -> Page:
        """The page of this name that has come back, or a new one. One that is loaded again may be heard before its old line is seen to
        end; one that was doubled in the browser has the same name, and becomes a page of its own."""
        page = self._pages.get(name)
        for _ in range(100):
            if is_back and page and page.line is not None:
                await asyncio.sleep(0.05)
        if not page or page.is_gone or page.line is not None:
            page = Page(self.shared)
            self._pages[page.name] = page
        return page

    async def _make_place(self) -> bool:
        """Forgets the page that is away longest where there are too many; false where none is away."""
        if len(self._pages) < MOST_PAGES:
            return True
        oldest = next(iter(self._away), None)
        if oldest is not None:
            await self.forget(self._pages[oldest])
        return oldest is not None

    async def _socket(self, request: web.Request) -> web.StreamResponse:
        """A page's line to the server; while it is open its run goes on."""
        if not await self._make_place():
            raise web.HTTPServiceUnavailable()
        socket = web.WebSocketResponse(heartbeat=20, max_msg_size=1 << 20, compress=False)
        await socket.prepare(request)
        page = await self._page(request.query.get("page", ""), "back" in request.query)
        page.line, page.is_greeted = socket, False
        if away := self._away.pop(page.name, None):
            away.cancel()
        self.seen.set()
        try:
            await page.hello(self._library)
            await self._listen(socket, page)
        finally:
            page.line = None
            self._away[page.name] = Away(self, page)
        return socket

    async def _listen(self, socket: web.WebSocketResponse, page: Page) -> None:
        waiting: set[asyncio.Task[None]] = set()
        async for message in socket:
            if message.type != WSMsgType.TEXT or len(waiting) >= MOST_ASKED:
                return
            task = self.shared.keep(page.answer(message.data))
            waiting.add(task)
            task.add_done_callback(waiting.discard)

    async def forget(self, page: Page) -> None:
        """Ends what a page had running that has not come back, and drops what it had found."""
        self._pages.pop(page.name, None)
        if away := self._away.pop(page.name, None):
            away.cancel()
        page.is_gone = True
        await page.end()
        page.drop()

    async def _save(self, request: web.Request) -> web.StreamResponse:
        """What a query of a page's run has found, as a file."""
        names = request.match_info
        page, form = self._pages.get(names["page"]), FORMS.get(names["form"])
        if not page or not form or not names["run"].isdecimal() or not names["query"].isdecimal():
            raise web.HTTPNotFound()
        try:
            found = page.found(int(names["run"]), int(names["query"]))
        except Exception as fault:
            raise web.HTTPNotFound() from fault
        response = web.StreamResponse(headers={"Content-Disposition": f'attachment; filename="{form.name}"'})
        response.content_type = form.kind
        with found.held():
            async with self._saving, contextlib.aclosing(saved(found, form)) as pieces:
                try:
                    first = await anext(pieces, b"")
                except Exception as fault:
                    raise web.HTTPInternalServerError(text=told_of(fault) + "\n") from fault
                try:
                    await response.prepare(request)
                    await response.write(first)
                    async for data in pieces:
                        await response.write(data)
                except Exception:  # also where the download was broken off
                    if request.transport:
                        request.transport.abort()  # so that what has come is not taken for the whole file
        return response

    def app(self) -> web.Application:
        """What answers requests: those of this desk's own pages, and 403 to all others."""

        async def guard(request: web.Request, handler: Handler) -> web.StreamResponse:
            if self._is_own(request):
                admit(request.transport)
                return await handler(request)
            response = web.Response(status=403, text=STRANGER)
            response.force_close()
            return response

        app = web.Application(middlewares=[web.middleware(guard)])
        app.on_response_prepare.append(self._head)
        app.router.add_get("/{token}/", self._front)
        app.router.add_get("/{token}/socket", self._socket)
        app.router.add_get("/{token}/save/{page}/{run}/{query}/{form}", self._save)
        app.router.add_get("/{token}/{name}", self._file)
        app.on_shutdown.append(self._close)
        return app

    async def _close(self, _app: web.Application) -> None:
        for page in list(self._pages.values()):
            line = page.line
            await self.forget(page)
            if isinstance(line, web.WebSocketResponse):
                await line.close()
