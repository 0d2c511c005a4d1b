#!/usr/bin/env python3
"""Strophe.js in headless Chromium, through nginx and a manager, to a server of XMPP: a login, messages to oneself, a reload in the midst, a
silence, one message more, and a logout. With --faults a proxy between drops one request or answer in ten and doubles one in ten. With
--swallow SECONDS the proxy keeps the first copy of one request, which carries a message, for so long, and then closes its connection: the
server never sees that copy, and the page isn't told that it is lost; the page then says a message each --every seconds, and neither
reloads nor is silent. --wait is what the page asks the manager for.

Wanted: chromium, nginx and libjs-strophe of Debian, a manager at --manager that takes POST /http-bind, and a server behind it.

Usage: strophe_run.py --manager PORT --address ADDRESS [--password WORD] [--count 200] [--silence 40] [--faults | --swallow SECONDS [--every 0.2]] [--wait 60] [--path /http-bind]
"""
import argparse
import http.client
import http.server
import json
import os
import pathlib
import random
import shutil
import subprocess
import tempfile
import threading
import time

HERE = pathlib.Path(__file__).resolve().parent
PAGE, PROXY, REPORT = 18091, 18092, 18093

NGINX = """
daemon off; pid {work}/nginx.pid; error_log {work}/nginx.log; worker_processes 1;
events {{}}
http {{
    access_log off;
    types {{ text/html html; text/javascript js; }}
    client_body_temp_path {work}/body; proxy_temp_path {work}/proxy; fastcgi_temp_path {work}/f; uwsgi_temp_path {work}/u; scgi_temp_path {work}/s;
    server {{
        listen 127.0.0.1:{page};
        location / {{ root {here}; }}
        location = /strophe.js {{ alias /usr/share/javascript/strophe/strophe.js; }}
        location /report {{ proxy_pass http://127.0.0.1:{report}; }}
        location /http-bind {{ proxy_pass http://127.0.0.1:{bind}{path}; proxy_buffering off; proxy_read_timeout 90s; }}
    }}
}}
"""


class Quiet(http.server.BaseHTTPRequestHandler):
    protocol_version = "HTTP/1.1"

    def log_message(self, *words):
        pass

    def content(self):
        return self.rfile.read(int(self.headers.get("Content-Length", "0")))

    def answer(self, status, content, kind="text/xml; charset=utf-8"):
        self.send_response(status)
        self.send_header("Content-Type", kind)
        self.send_header("Content-Length", str(len(content)))
        self.end_headers()
        self.wfile.write(content)


def asked_of(manager, path, body):
    link = http.client.HTTPConnection("127.0.0.1", manager, timeout=120)
    link.request("POST", path, body, {"Content-Type": "text/xml"})
    response = link.getresponse()
    content = response.read()
    link.close()
    return response.status, content


def faulty(manager, path, counts, seed):
    """A proxy that loses and doubles, by a generator of its own."""
    drawn, lock = random.Random(seed), threading.Lock()

    def ask(body):
        return asked_of(manager, path, body)

    class Proxy(Quiet):
        def do_POST(self):
            body = self.content()
            with lock:
                fate = drawn.random()
                counts["requests"] += 1
            if fate < 0.05:
                counts["requests lost"] += 1
                self.close_connection = True
                return
            if fate < 0.10:
                counts["answers lost"] += 1
                try:
                    ask(body)
                finally:
                    self.close_connection = True
                return
            if fate < 0.20:
                counts["doubled"] += 1
                threading.Thread(target=self.again, args=[body], daemon=True).start()
            try:
                self.answer(*ask(body))
            except OSError:
                self.close_connection = True

        def again(self, body):
            try:
                ask(body)
            except OSError:
                pass

    return Proxy


def swallowing(manager, path, counts, seconds):
    """A proxy that keeps the first copy of the third request with a message."""
    lock, seen = threading.Lock(), {"messages": 0}

    class Proxy(Quiet):
        def do_POST(self):
            body = self.content()
            with lock:
                counts["requests"] += 1
                seen["messages"] += b"hello" in body
                is_swallowed = seen["messages"] == 3 and counts["swallowed"] == 0
                counts["swallowed"] += is_swallowed
            if is_swallowed:
                time.sleep(seconds)
                self.close_connection = True
                return
            try:
                status, content = asked_of(manager, path, body)
                counts["errors"] += b"type='error'" in content
                self.answer(status, content)
            except OSError:
                self.close_connection = True

    return Proxy


def reporter(reports, came):
    class Report(Quiet):
        def do_POST(self):
            reports.append(json.loads(self.content()))
            self.answer(200, b"", "text/plain")
            came.set()

    return Report


def serve(port, handler):
    server = http.server.ThreadingHTTPServer(("127.0.0.1", port), handler)
    server.daemon_threads = True
    threading.Thread(target=server.serve_forever, daemon=True).start()


def main():
    words = argparse.ArgumentParser(description=__doc__, formatter_class=argparse.RawDescriptionHelpFormatter)
    words.add_argument("--manager", type=int, required=True)
    words.add_argument("--path", default="/http-bind")
    words.add_argument("--address", required=True)
    words.add_argument("--password", default="")
    words.add_argument("--count", type=int, default=200)
    words.add_argument("--silence", type=int, default=40)
    words.add_argument("--limit", type=int, default=300)
    words.add_argument("--faults", action="store_true")
    words.add_argument("--swallow", type=int, default=0)
    words.add_argument("--every", type=float, default=0.2)
    words.add_argument("--wait", type=int, default=60)
    words.add_argument("--seed", type=int, default=1)
    asked = words.parse_args()

    counts = {"requests": 0, "swallowed": 0, "errors": 0} if asked.swallow else {"requests": 0, "requests lost": 0, "answers lost": 0, "doubled": 0}
    reports, came = [], threading.Event()
    serve(REPORT, reporter(reports, came))
    if asked.faults:
        serve(PROXY, faulty(asked.manager, asked.path, counts, asked.seed))
    elif asked.swallow:
        serve(PROXY, swallowing(asked.manager, asked.path, counts, asked.swallow))
    is_between = asked.faults or asked.swallow > 0
    work = tempfile.mkdtemp(prefix="strophe_run_")
    bind, path = (PROXY, "/http-bind") if is_between else (asked.manager, asked.path)
    (pathlib.Path(work) / "nginx.conf").write_text(NGINX.format(work=work, page=PAGE, here=HERE, report=REPORT, bind=bind, path=path))
    nginx = subprocess.Popen(["nginx", "-p", work, "-c", f"{work}/nginx.conf"])
    url = f"http://127.0.0.1:{PAGE}/run.html?address={asked.address}&password={asked.password}&count={asked.count}&silence={asked.silence}&limit={asked.limit}&wait={asked.wait}&every={asked.every if asked.swallow else 0}"
    browser = subprocess.Popen(
        ["chromium", "--headless", "--no-sandbox", "--disable-gpu", f"--user-data-dir={work}/profile", "--remote-debugging-port=0", url],
        stdout=subprocess.DEVNULL, stderr=subprocess.DEVNULL)
    try:
        came.wait(asked.limit + 60)
    finally:
        browser.kill()
        nginx.terminate()
        nginx.wait()
        shutil.rmtree(work, ignore_errors=True)
    print(json.dumps(reports[0]) if reports else "no report")
    if is_between:
        print(json.dumps(counts))
    good = bool(reports) and reports[0]["end"] == "disconnected" and reports[0]["inOrder"] and reports[0]["got"] == asked.count + (not asked.swallow)
    print("each message came back once and in order" if good else "NOT each message came back once and in order")
    raise SystemExit(0 if good else 1)


if __name__ == "__main__":
    os.chdir(HERE)
    main()
