"""A service that shows the page as the files of `page/` have it now, before one that was built with an older page, so
that a page which is worked on can be tried without building the program. Who may ask is looked at here by the service's
rules, for the port of this one; all but the page, and the proof that the token is known at that port, is handed on."""
import contextlib
import hashlib
import hmac
import http.client
import http.server
import threading

import make_page


class Proxy(http.server.BaseHTTPRequestHandler):
    """Answers one request of a browser."""

    behind, token = 0, None

    def own_names(self):
        return [f"{name}:{self.server.server_port}" for name in ["127.0.0.1"] + ["localhost"] * (not self.token)]

    def do_GET(self):
        own = self.own_names()
        if self.headers.get("Host") not in own:
            return self.tell(421, [], b'{"http":421}\n')
        if self.headers.get("Origin") not in [None, *("http://" + it for it in own)]:
            return self.tell(403, [], b'{"http":403}\n')
        length = int(self.headers.get("Content-Length", 0))
        told = self.ask_behind(self.rfile.read(length) if self.command == "POST" else None)
        if not told:
            self.close_connection = True   # as by a service that has ended
            return None
        status, fields, body = told
        if self.token and self.path.startswith("/prove/") and status == 200:
            text = f"{self.server.server_port}:{self.path.removeprefix('/prove/')}"
            body = hmac.new(self.token, text.encode(), hashlib.sha256).hexdigest().encode()
        if self.path == "/" and status == 200:
            page = make_page.page()
            body = page.encode()
            fields = [it for it in fields if it[0] != "Content-Security-Policy"]
            fields.append(("Content-Security-Policy", make_page.policy_of(page)))
        return self.tell(status, fields, body)

    do_POST = do_GET

    def ask_behind(self, body):
        """What the service answers, or nothing where it doesn't."""
        fields = {name: it for name, it in self.headers.items() if name.lower() not in ("host", "origin", "connection")}
        fields["Host"] = f"127.0.0.1:{self.behind}"
        if "Origin" in self.headers:
            fields["Origin"] = f"http://{fields['Host']}"
        with contextlib.closing(http.client.HTTPConnection("127.0.0.1", self.behind, timeout=120)) as asked:
            try:
                asked.request(self.command, self.path, body, fields)
                answer = asked.getresponse()
                return answer.status, answer.getheaders(), answer.read()
            except (OSError, http.client.HTTPException):
                return None

    def tell(self, status, fields, body):
        self.send_response_only(status)
        for name, it in fields:
            if name.lower() not in ("content-length", "connection"):
                self.send_header(name, it)
        if status != 304:
            self.send_header("Content-Length", str(len(body)))
        self.send_header("Connection", "close")
        self.end_headers()
        with contextlib.suppress(OSError):
            self.wfile.write(body)

    def log_message(self, *_):
        pass


def start(behind, token=None):
    """A proxy that is served already, before the service at that port, which asks for that token if there is one."""
    made = http.server.ThreadingHTTPServer(("127.0.0.1", 0), type("One", (Proxy,), {"behind": behind, "token": token}))
    made.daemon_threads = True
    threading.Thread(target=made.serve_forever, daemon=True).start()
    return made
