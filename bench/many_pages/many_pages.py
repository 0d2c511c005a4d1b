#!/usr/bin/env python3
"""Thirty pages over three managers, as examples/many has it, with a real Strophe.js in headless Chromium; one manager is killed in the midst.

Wanted: chromium, nginx, prosody and libjs-strophe of Debian, and a PROGRAM that runs the command `serve`.

usage: many_pages.py PROGRAM [PAGES] [SECONDS]      30 pages for 60 seconds, where no other is said; the manager s2 is killed once all
                                                    logged in, and a sixth of that time later

The pages are frames of one browser, each at a host of its own, so that each has connections of its own. Each logs in as nobody, and sends itself a
message a second. What has to come out: every page whose manager lives has one session, whose name begins with that manager's, and gets each message
once. Every page of the one that was killed is told item-not-found, logs in anew at the one that stands in, and goes on there.
"""
import collections
import http.server
import json
import os
import pathlib
import shutil
import subprocess
import sys
import tempfile
import threading
import time

HERE = pathlib.Path(__file__).resolve().parent
TOP = HERE.parent.parent
REPORT, FRAMES = 18193, 18194
NODES = {"s1": 5281, "s2": 5282, "s3": 5283}
KILLED, STANDS_IN = "s2", "s3"
DOMAIN = "anonymous.localhost"


def serve(port, handler):
    server = http.server.ThreadingHTTPServer(("127.0.0.1", port), handler)
    server.daemon_threads = True
    threading.Thread(target=server.serve_forever, daemon=True).start()


class Quiet(http.server.BaseHTTPRequestHandler):
    def log_message(self, *words):
        pass

    def answer(self, content, kind):
        self.send_response(200)
        self.send_header("Content-Type", kind)
        self.send_header("Content-Length", str(len(content)))
        self.end_headers()
        self.wfile.write(content)


def reporter(reports):
    class Report(Quiet):
        def do_POST(self):
            reports.append(json.loads(self.rfile.read(int(self.headers["Content-Length"]))))
            self.answer(b"", "text/plain")

    return Report


def frames(pages, seconds):
    """A page of so many frames, each at a host of its own."""
    words = f"domain={DOMAIN}&seconds={seconds}&report=http://127.0.0.1:{REPORT}/"
    text = "".join(f"<iframe src='http://p{page}.test:8082/?{words}&page={page}'></iframe>" for page in range(pages)).encode()

    class Frames(Quiet):
        def do_GET(self):
            self.answer(text, "text/html")

    return Frames


def start_managers(program, work):
    managers = {}
    for node, port in NODES.items():
        words = [program, "serve", "--port", str(port), "--name", node, "--xmpp", DOMAIN, "--gap-waits", "2", "--log", "--workers", "2"]
        managers[node] = subprocess.Popen(words, stdout=subprocess.PIPE, stderr=open(work / f"{node}.log", "w"))
        managers[node].stdout.readline()
    return managers


def start_prosody(work):
    folder = work / "xmpp"
    shutil.copytree(TOP / "examples/xmpp", folder)
    (folder / "data").mkdir()
    server = subprocess.Popen(["prosody", "--config", "prosody.cfg.lua", "-F"], cwd=folder, stdout=open(work / "prosody.log", "w"), stderr=subprocess.STDOUT)
    time.sleep(3)
    return server


def start_nginx(work):
    folder = work / "many"
    shutil.copytree(TOP / "examples/many", folder)
    for name in ("index.html", "run.js"):
        shutil.copy(HERE / name, folder / name)
    return subprocess.Popen(["nginx", "-p", folder, "-c", "nginx.conf"], cwd=folder, stderr=open(work / "nginx.log", "w"))


def start_browser(work):
    return subprocess.Popen(
        ["chromium", "--headless", "--no-sandbox", "--disable-gpu", f"--user-data-dir={work}/profile", "--host-resolver-rules=MAP *.test 127.0.0.1",
         "--disable-background-timer-throttling", "--disable-features=IsolateOrigins,site-per-process", "--remote-debugging-port=0", f"http://127.0.0.1:{FRAMES}/"],
        stdout=subprocess.DEVNULL, stderr=open(work / "browser.log", "w"))


def whole(login, last):
    """Whether each message of a login came back once; of a login that was cut off the last ones may be missing."""
    got = sorted(login["got"])
    return got == login["sent"][:len(got)] and (not last or got == login["sent"])


def exchanged(login):
    """How many messages came behind a later one. Strophe.js takes answers as they come, and not in the order of their ids."""
    return sum(login["got"][at] < login["got"][at - 1] for at in range(1, len(login["got"])))


def faults_of(report):
    node, logins = report["node"], report["logins"]
    faults = []
    if not logins:
        return ["never logged in"]
    if not logins[0]["sid"].startswith(node + "-"):
        faults.append(f"its session is {logins[0]['sid']}")
    if node == KILLED:
        if logins[0]["over"] != "item-not-found":
            faults.append(f"was told {logins[0]['over']}")
        if len(logins) < 2 or not logins[1]["sid"].startswith(STANDS_IN + "-"):
            faults.append("didn't log in anew where it is stood in for")
    elif len(logins) != 1:
        faults.append(f"logged in {len(logins)} times")
    if not all(whole(login, login is logins[-1]) for login in logins):
        faults.append("a message was lost or doubled")
    return faults


def opened_in(work):
    """How many sessions were opened at all managers, by their logs."""
    return sum((work / f"{node}.log").read_text().count(" event=opened ") for node in NODES)


def ended_in(path):
    """How the sessions of a log were ended."""
    text = path.read_text()
    opened = text.count(" event=opened ")
    return f"{opened} opened, {text.count(' event=ended ')} ended"


def main(program, pages=30, seconds=60):
    work = pathlib.Path(tempfile.mkdtemp(prefix="many_pages_"))
    # Where nginx is started by root its worker is another user.
    work.chmod(0o755)
    reports = []
    serve(REPORT, reporter(reports))
    serve(FRAMES, frames(pages, seconds))
    running = [start_prosody(work)]
    managers = start_managers(program, work)
    running += managers.values()
    running += [start_nginx(work)]
    time.sleep(1)
    running += [start_browser(work)]
    began = time.monotonic()
    try:
        while opened_in(work) < pages and time.monotonic() < began + seconds / 2:
            time.sleep(1)
        time.sleep(seconds / 6)
        managers[KILLED].kill()
        print(f"killed {KILLED} after {time.monotonic() - began:.0f} s")
        while len(reports) < pages and time.monotonic() < began + seconds + 90:
            time.sleep(1)
    finally:
        for it in reversed(running):
            # nginx ends its workers where it is asked to end.
            it.terminate()
            it.wait()
    (work / "reports.json").write_text(json.dumps(reports))
    wrong = 0
    for report in sorted(reports, key=lambda it: int(it["page"])):
        for fault in faults_of(report):
            wrong += 1
            print(f"page {report['page']} at {report['node']}: {fault}")
    at = collections.Counter(report["node"] for report in reports)
    logins = collections.Counter((report["node"], len(report["logins"])) for report in reports)
    told = collections.Counter(login["over"] for report in reports for login in report["logins"] if login["over"])
    swapped = sum(exchanged(login) for report in reports for login in report["logins"])
    got = sum(len(login["got"]) for report in reports for login in report["logins"])
    print(f"{len(reports)} pages: {dict(at)}; logins {({f'{node} x{count}': number for (node, count), number in sorted(logins.items())})}; told {dict(told)}; {got} messages came back, {swapped} of them behind a later one")
    print(f"logs: {({node: ended_in(work / f'{node}.log') for node in NODES})}; in {work}")
    return 0 if len(reports) == pages and not wrong else 1


if __name__ == "__main__":
    if len(sys.argv) < 2:
        sys.exit(__doc__)
    sys.exit(main(os.path.abspath(sys.argv[1]), *map(int, sys.argv[2:])))
