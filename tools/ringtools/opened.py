"""How long a browser takes to open a page, for benches: from when it begins to load until a script has seen what it waits for."""

from __future__ import annotations

import http.server
import subprocess
import threading

from .markup import hash_of

LONGEST = 60.0  # seconds that a page may take


class Served(http.server.BaseHTTPRequestHandler):
    """Gives the page, and takes the time that it reports."""

    def do_GET(self) -> None:
        self.send_response(200)
        self.send_header("Content-Type", "text/html; charset=utf-8")
        self.end_headers()
        self.wfile.write(self.server.page)

    def do_POST(self) -> None:
        self.server.told = float(self.rfile.read(int(self.headers["Content-Length"])))
        self.send_response(200)
        self.end_headers()
        self.server.is_ready.set()

    def log_message(self, *_words: object) -> None:
        pass


def script_of(deeds: str, until: str) -> str:
    """Returns a script that does these deeds, waits until an expression is true, and reports the time since the page began to load."""
    wait = f"while (!({until})) await new Promise((done) => setTimeout(done, 5));"
    return f'(async () => {{ {deeds} {wait} fetch("ready", {{ method: "POST", body: String(performance.now()) }}); }})();'


def prepared(page: bytes, script: str) -> bytes:
    """Returns a page with a script more, which its policy allows then, and which may report to where the page came from."""
    text = page.decode().replace("script-src ", f"connect-src 'self'; script-src {hash_of(script)} ", 1)
    return text.replace("</body>", f"<script>{script}</script></body>").encode()


def seconds_to_open(browser: str, page: bytes, script: str, folder: str) -> float:
    """Returns the seconds until the script has reported, at most LONGEST."""
    server = http.server.ThreadingHTTPServer(("127.0.0.1", 0), Served)
    server.page, server.told, server.is_ready = prepared(page, script), None, threading.Event()
    threading.Thread(target=server.serve_forever, daemon=True).start()
    words = [browser, "--headless=new", "--no-sandbox", "--disable-gpu", "--no-first-run", f"--user-data-dir={folder}/own", f"http://127.0.0.1:{server.server_port}/"]
    running = subprocess.Popen(words, stdout=subprocess.DEVNULL, stderr=subprocess.DEVNULL)
    try:
        server.is_ready.wait(LONGEST)
    finally:
        running.terminate()
        running.wait()
        server.shutdown()
    return LONGEST if server.told is None else server.told / 1000
