#!/usr/bin/env python3
"""Serves the page that bindings/web/build made, on this machine alone.

    bindings/web/serve.py [PORT]                  on 8799 where no port is given
    bindings/web/serve.py --test FOLDER [PORT]    for bindings/web/run: the page stands under /any/place/, and the module is of no known type, as on a server that
                                         knows nothing of it. It hands out FOLDER/cases.json, writes what the page posts to FOLDER/report, and lets
                                         the page's picture be taken only then
"""

import functools
import http.server
import sys
import threading
from pathlib import Path

SITE = Path(__file__).resolve().parent / "out"
LONGEST = 300  # seconds that a page may take to report
PLACE = "/any/place"  # of the page under test


class Server(http.server.ThreadingHTTPServer):
    test = None  # the folder
    reported = threading.Event()


class Handler(http.server.SimpleHTTPRequestHandler):
    extensions_map = {**http.server.SimpleHTTPRequestHandler.extensions_map, ".wasm": "application/wasm", ".js": "text/javascript", "": "text/plain"}

    def end_headers(self):
        self.send_header("Cache-Control", "no-store")
        super().end_headers()

    def guess_type(self, path):
        return "application/octet-stream" if self.server.test and path.endswith(".wasm") else super().guess_type(path)

    def do_GET(self):
        if self.server.test:
            if not self.path.startswith(f"{PLACE}/"):
                return self.send_error(404)
            self.path = self.path.removeprefix(PLACE)
        # A picture is taken once a page is loaded. A page under test has an image here, which isn't there before its report.
        if self.path == "/reported" and self.server.test:
            self.server.reported.wait(LONGEST)
            self.send_response(204)
            return self.end_headers()
        if self.path == "/cases.json" and self.server.test:
            self.directory = self.server.test
        return super().do_GET()

    def do_POST(self):
        if self.path != f"{PLACE}/report" or not self.server.test:
            return self.send_error(404)
        body = self.rfile.read(int(self.headers["Content-Length"]))
        Path(self.server.test, "report").write_bytes(body)
        self.send_response(204)
        self.end_headers()
        self.server.reported.set()

    def log_message(self, *words):
        if not self.server.test:
            super().log_message(*words)


def main(words):
    test = None
    if words[:1] == ["--test"]:
        test, words = words[1], words[2:]
    if not (SITE / "dillmonth.wasm").is_file():
        sys.exit("there is no bindings/web/out/dillmonth.wasm: bindings/web/build makes it")
    server = Server(("127.0.0.1", int(words[0]) if words else 8799), functools.partial(Handler, directory=SITE))
    server.test = test
    if not test:
        print(f"http://127.0.0.1:{server.server_port}/")
    server.serve_forever()


if __name__ == "__main__":
    main(sys.argv[1:])
