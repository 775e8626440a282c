"""An engine that takes rows as ClickHouse does, but for what it is told to do."""
import json
import ssl
import threading
import time
from http.server import BaseHTTPRequestHandler, ThreadingHTTPServer
from pathlib import Path
from typing import Any

from journalcollect.forward.rows import COLUMNS, OWN


class StandIn:
    """`bad` is a word that no row may have; `answer` takes an answer's place; `drip` seconds pass between two bytes."""

    def __init__(self, certificate: Path | None = None, client: Path | None = None) -> None:
        self.rows: list[dict[str, Any]] = []
        self.requests = 0
        # How many connections ended to which it dripped.
        self.held = 0
        self.bad, self.drip, self.cut, self.answer = "", 0.0, False, b""
        stand_in = self

        class Handler(BaseHTTPRequestHandler):
            def do_POST(self) -> None:
                stand_in.take(self)

            def log_message(self, *_: Any) -> None:
                """Nothing is said."""

        self.server = ThreadingHTTPServer(("127.0.0.1", 0), Handler)
        if certificate:
            context = ssl.SSLContext(ssl.PROTOCOL_TLS_SERVER)
            context.load_cert_chain(certificate)
            if client:
                context.load_verify_locations(client)
                context.verify_mode = ssl.CERT_REQUIRED
            self.server.socket = context.wrap_socket(self.server.socket, server_side=True)
        self.url = f"http{'s' if certificate else ''}://localhost:{self.server.server_port}"
        self.headers: dict[str, str] = {}
        threading.Thread(target=self.server.serve_forever, daemon=True).start()

    def take(self, request: BaseHTTPRequestHandler) -> None:
        body = request.rfile.read(int(request.headers["Content-Length"]))
        self.headers, self.requests = dict(request.headers), self.requests + 1
        status, said = 200, b""
        if body.startswith(b"SELECT name"):
            said = "\n".join([*OWN, *COLUMNS.values()]).encode()
        elif self.cut:
            request.connection.close()
            return
        elif self.answer:
            status, said = 503, self.answer
        elif self.bad and self.bad.encode() in body:
            status, said = 400, b"Code: 27. DB::Exception: Cannot parse input"
        else:
            self.rows += [json.loads(line) for line in body.splitlines()]
        request.send_response(status)
        if not self.drip:
            request.send_header("Content-Length", str(len(said)))
            request.end_headers()
            request.wfile.write(said)
            return
        request.end_headers()
        try:
            while self.drip:
                request.wfile.write(b" ")
                request.wfile.flush()
                time.sleep(self.drip)
        except OSError:
            self.held += 1

    def end(self) -> None:
        self.drip = 0.0
        self.server.shutdown()
        self.server.server_close()
