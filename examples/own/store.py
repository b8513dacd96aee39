"""A small database, for a first test: it keeps a set of words, and answers by HTTP.

    python3 store.py PORT FILE [--save-first]

PUT /WORD adds a word, GET / reads all, as a list in JSON. They stand in FILE, which is written twice a second; with
--save-first it is written before a PUT is answered.
"""

import http.server
import json
import os
import sys
import threading
import time

PORT, FILE, *OPTIONS = sys.argv[1:]
words: set[str] = set()
lock = threading.Lock()


def save() -> None:
    with lock:
        with open(f"{FILE}.new", "w", encoding="utf-8") as file:
            json.dump(sorted(words), file)
        os.replace(f"{FILE}.new", FILE)


def save_now_and_then() -> None:
    while True:
        time.sleep(0.5)
        save()


class Handler(http.server.BaseHTTPRequestHandler):
    protocol_version = "HTTP/1.1"
    disable_nagle_algorithm = True

    def do_GET(self) -> None:
        with lock:
            self.answer(json.dumps(sorted(words)))

    def do_PUT(self) -> None:
        with lock:
            words.add(self.path[1:])
        if "--save-first" in OPTIONS:
            save()
        self.answer("added")

    def answer(self, text: str) -> None:
        self.send_response(200)
        self.send_header("Content-Length", str(len(text)))
        self.end_headers()
        self.wfile.write(text.encode())

    def log_message(self, *_: object) -> None:
        """Says nothing of each request."""


if os.path.exists(FILE):
    with open(FILE, encoding="utf-8") as kept:
        words.update(json.load(kept))
threading.Thread(target=save_now_and_then, daemon=True).start()
http.server.ThreadingHTTPServer(("", int(PORT)), Handler).serve_forever()
