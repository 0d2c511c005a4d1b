#!/usr/bin/env python3
"""Refuses memory to a server that runs, at each of its allocations in turn, and says what comes of two requests over loopback: a creation,
and one that is answered by a later stanza. What was not answered as without a refusal is asked once more, on a fresh connection.

usage: tools/refused_memory.py PROGRAM [FIRST [LAST]]     as tools/refused_memory.py crates/bosh_main/out/bosh_main

PROGRAM is the built program, which serves at port 5287 with one worker. Its Nth call of malloc and the like answers that there is no memory,
by a library that is loaded before the C library and built by `cc`; N goes from FIRST on, until a run makes fewer calls, or to LAST.
"""
import os
import socket
import subprocess
import sys
import tempfile

SHIM = r"""
#define _GNU_SOURCE
#include <dlfcn.h>
#include <errno.h>
#include <fcntl.h>
#include <stdatomic.h>
#include <stdlib.h>
#include <sys/mman.h>
#include <unistd.h>
static atomic_ulong own, *calls = &own;
static unsigned long refused = -1ul;
/* The count stands in a file, since a program that ends by _exit runs nothing more. */
__attribute__((constructor)) static void begin(void) {
    const char *path = getenv("REFUSED_LOG"), *at = getenv("REFUSED");
    int file = path ? open(path, O_RDWR | O_CREAT | O_TRUNC, 0600) : -1;
    if (file >= 0 && ftruncate(file, sizeof own) == 0) {
        void *shared = mmap(0, sizeof own, PROT_READ | PROT_WRITE, MAP_SHARED, file, 0);
        if (shared != MAP_FAILED) calls = shared;
    }
    if (at) refused = strtoul(at, 0, 10);
}
static int refuses(void) { return atomic_fetch_add(calls, 1) + 1 == refused; }
static char early[65536];
static size_t early_used;
static void *first(size_t n) { void *p = early + early_used; early_used += (n + 15) & ~15ul; return p; }
#define NEXT(name, type) static type next; if (!next) next = (type)dlsym(RTLD_NEXT, name)
void *malloc(size_t n) {
    typedef void *(*call)(size_t); NEXT("malloc", call);
    if (refuses()) { errno = ENOMEM; return 0; }
    return next(n);
}
void *calloc(size_t k, size_t n) {
    static int inside; typedef void *(*call)(size_t, size_t); static call next;
    if (!next) { if (inside) return first(k * n); inside = 1; next = (call)dlsym(RTLD_NEXT, "calloc"); inside = 0; }
    if (refuses()) { errno = ENOMEM; return 0; }
    return next(k, n);
}
void *realloc(void *p, size_t n) {
    typedef void *(*call)(void *, size_t); NEXT("realloc", call);
    if (refuses()) { errno = ENOMEM; return 0; }
    return next(p, n);
}
void *aligned_alloc(size_t a, size_t n) {
    typedef void *(*call)(size_t, size_t); NEXT("aligned_alloc", call);
    if (refuses()) { errno = ENOMEM; return 0; }
    return next(a, n);
}
int posix_memalign(void **p, size_t a, size_t n) {
    typedef int (*call)(void **, size_t, size_t); NEXT("posix_memalign", call);
    return refuses() ? ENOMEM : next(p, a, n);
}
void free(void *p) {
    typedef void (*call)(void *); NEXT("free", call);
    if ((char *)p < early || (char *)p >= early + sizeof early) next(p);
}
"""

PORT = 5287
BODY = "xmlns='http://jabber.org/protocol/httpbind'"


def asked(body):
    """What a request with this body is answered on a new connection."""
    try:
        link = socket.create_connection(("127.0.0.1", PORT), timeout=10)
    except OSError:
        return ""
    text = f"POST /http-bind HTTP/1.1\r\nHost: a\r\nConnection: close\r\nContent-Length: {len(body)}\r\n\r\n{body}"
    out = b""
    try:
        link.sendall(text.encode())
        while True:
            more = link.recv(65536)
            if not more:
                break
            out += more
    except OSError:
        pass
    link.close()
    return out.decode()


def kind(answer, wanted):
    if wanted in answer:
        return "own"
    if answer.startswith("HTTP/1.1 503 "):
        return "503"
    if not answer:
        return "closed"
    return "otherwise: " + answer[-120:]


def asked_twice(body, wanted):
    """What the request is answered, and what it is answered once more where that was not its own answer."""
    answer = asked(body)
    told = kind(answer, wanted)
    if told != "own":
        answer = asked(body)
        told += ", then " + kind(answer, wanted)
    return answer, told


def what_came():
    creation = f"<body rid='1000' to='echo.localhost' wait='5' hold='1' ver='1.6' {BODY}/>"
    answer, first = asked_twice(creation, "<stream:features/></body>")
    if " sid='" not in answer:
        return f"creation: {first}"
    sid = answer.split(" sid='")[1].split("'")[0]
    _, later = asked_twice(f"<body rid='1001' sid='{sid}' {BODY}><message/></body>", "<message/></body>")
    return f"creation: {first}; request: {later}"


def run(program, shim, log, number):
    """What came where this call was refused, and how many calls the program made until it was to end."""
    if os.path.exists(log):
        os.remove(log)
    env = dict(os.environ, LD_PRELOAD=shim, REFUSED=str(number), REFUSED_LOG=log)
    words = [program, "serve", "--port", str(PORT), "--workers", "1", "--until-eof"]
    server = subprocess.Popen(words, stdin=subprocess.PIPE, stdout=subprocess.PIPE, stderr=subprocess.DEVNULL, env=env)
    serves = server.stdout.readline() == b"serving\n"
    came = what_came() if serves and server.poll() is None else "not begun"
    calls = int.from_bytes(open(log, "rb").read(), "little") if os.path.exists(log) else 0
    server.stdin.close()
    try:
        status = server.wait(timeout=20)
    except subprocess.TimeoutExpired:
        server.kill()
        status = server.wait()
    return f"{came}; status {status}", calls


def main(program, first, last):
    with tempfile.TemporaryDirectory() as folder:
        source, shim, log = (os.path.join(folder, name) for name in ("shim.c", "shim.so", "log"))
        with open(source, "w") as out:
            out.write(SHIM)
        subprocess.run(["cc", "-O1", "-shared", "-fPIC", "-o", shim, source, "-ldl"], check=True)
        came, calls = run(program, shim, log, 0)
        print(f"no refusal: {came}, {calls} calls")
        last = min(last, calls)
        said, begun = None, first
        for number in range(first, last + 1):
            came, _ = run(program, shim, log, number)
            if came != said:
                if said is not None:
                    print(f"{begun} to {number - 1}: {said}", flush=True)
                said, begun = came, number
        print(f"{begun} to {last}: {said}")
    return 0


if __name__ == "__main__":
    words = sys.argv[1:]
    if not words:
        sys.exit(__doc__)
    sys.exit(main(words[0], int(words[1]) if len(words) > 1 else 1, int(words[2]) if len(words) > 2 else 10 ** 6))
