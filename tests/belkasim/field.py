"""What an operator sets up in the field: `serve`, nginx with TLS and passwords in front of it, a forwarder, and what `curl` asks."""

import base64
import gzip
import http.server
import json
import os
import shutil
import ssl
import subprocess
import tempfile
import threading

from belkasim.http import TAXII
from belkasim.objects import COLLECTION, OBJECTS, canonical, compact, envelope, indicator, number_of
from belkasim.rows import TOP
from belkasim.runner import Differs, finish, one_line, same
from belkasim.server import free_port, wait_for

MODULE = next((it for it in (
    "/usr/lib/nginx/modules/ngx_http_js_module.so", "/usr/share/nginx/modules/ngx_http_js_module.so",
    "/usr/lib64/nginx/modules/ngx_http_js_module.so",
) if os.path.exists(it)), None)
HOST = "taxii.example.com"
READER, WRITER = "reader:reader-secret", "writer:writer-secret"


def indicator_text(number, pattern="[file:name = 'a']", **more):
    return canonical(compact(indicator(number, pattern, **more)))


class Compressed(http.server.BaseHTTPRequestHandler):
    """A server whose answers are compressed and chunked, whatever is asked for."""

    protocol_version = "HTTP/1.1"
    body = envelope(map(indicator_text, range(2000))).encode()

    def do_GET(self):
        packed = gzip.compress(self.body)
        self.send_response(200)
        for name, value in (("Content-Type", TAXII), ("Content-Encoding", "gzip"), ("Transfer-Encoding", "chunked")):
            self.send_header(name, value)
        self.end_headers()
        for at in range(0, len(packed), 1000):
            piece = packed[at:at + 1000]
            self.wfile.write(b"%x\r\n%b\r\n" % (len(piece), piece))
            self.wfile.flush()
        self.wfile.write(b"0\r\n\r\n")

    def log_message(self, *words):
        pass


class Field:
    """Everything that runs, in a folder of its own."""

    def __init__(self, programs, folder):
        self.programs, self.folder, self.children = programs, folder, []
        self.serving, self.front, self.forward, self.other = (free_port() for _ in range(4))
        self.compressed = free_port()

    def path(self, name):
        return os.path.join(self.folder, name)

    def start(self, words, port, **more):
        child = subprocess.Popen(words, stdin=subprocess.DEVNULL, **more)
        self.children.append(child)
        wait_for(port, child)
        return child

    def serve(self, store, port):
        return self.start([
            os.path.join(self.programs, "stix_command"), "serve", "--port", str(port), "--connections", "1000000", "--store", store,
            "--base", f"https://{HOST}", f"{COLLECTION}:rw:Indicators",
        ], port, stdout=subprocess.DEVNULL)

    def set_up(self):
        self.make_passwords()
        self.server = self.serve(self.path("store"), self.serving)
        self.start_compressed()
        self.start_nginx()

    def make_passwords(self):
        """A certificate, and who may read and write."""
        subprocess.run(
            ["openssl", "req", "-x509", "-newkey", "rsa:2048", "-nodes", "-keyout", self.path("key"), "-out", self.path("crt"), "-days", "2",
             "-subj", f"/CN={HOST}", "-addext", f"subjectAltName=DNS:{HOST}"], check=True, capture_output=True,
        )
        for name, users in (("readers", ("reader", "writer")), ("writers", ("writer",))):
            with open(self.path(name), "w", encoding="utf-8") as it:
                for user in users:
                    sum_of = subprocess.run(["openssl", "passwd", "-apr1", user + "-secret"], check=True, capture_output=True, text=True)
                    it.write(f"{user}:{sum_of.stdout.strip()}\n")

    def start_compressed(self):
        server = http.server.ThreadingHTTPServer(("127.0.0.1", self.compressed), Compressed)
        context = ssl.SSLContext(ssl.PROTOCOL_TLS_SERVER)
        context.load_cert_chain(self.path("crt"), self.path("key"))
        server.socket = context.wrap_socket(server.socket, server_side=True)
        threading.Thread(target=server.serve_forever, daemon=True).start()

    def changed(self, name, changes):
        """A file of packaging/ with what an operator changes in it."""
        with open(TOP / "packaging" / name, encoding="utf-8") as it:
            text = it.read()
        for old, new in changes:
            if old not in text:
                raise Differs(f"packaging/{name} has no {old}")
            text = text.replace(old, new)
        return text

    def forwarder(self, port, server, password):
        return self.changed("forwarder/forwarder.conf", [
            ("127.0.0.1:8081", f"127.0.0.1:{port}"), (f"https://{HOST}/", f"https://127.0.0.1:{server}/"),
            ("Basic TkFNRTpQQVNTV09SRA==", "Basic " + base64.b64encode(password.encode()).decode()),
            ("/etc/ssl/certs/ca-certificates.crt", self.path("crt")), ("/etc/nginx/conf.d", self.folder),
        ])

    def start_nginx(self):
        shutil.copy(TOP / "packaging/forwarder/whole.js", self.folder)
        site = self.changed("nginx/taxii.conf", [
            ("listen 443", f"listen 127.0.0.1:{self.front}"), ("127.0.0.1:8080", f"127.0.0.1:{self.serving}"), ("/etc/nginx/taxii.crt", self.path("crt")),
            ("/etc/nginx/taxii.key", self.path("key")), ("/etc/nginx/taxii.readers", self.path("readers")),
            ("/etc/nginx/taxii.writers", self.path("writers")), ("/var/log/nginx/taxii.log", self.path("log")), ("rate=20r/s", "rate=1000r/s"),
        ])
        again = self.forwarder(self.other, self.compressed, READER).replace(f"js_path {self.folder};", "")
        again = again.replace("js_import forwarder from whole.js;", "")
        self.run_nginx(self.forwarder(self.forward, self.front, READER) + site + again, f"load_module {MODULE};\n")
        wait_for(self.forward, self.children[-1])

    def run_nginx(self, sites, modules=""):
        kept = "".join(f"{it}_temp_path {self.path(it)};\n" for it in ("client_body", "proxy", "fastcgi", "uwsgi", "scgi"))
        with open(self.path("nginx.conf"), "w", encoding="utf-8") as it:
            it.write(
                f"{modules}pid {self.path('pid')};\nerror_log {self.path('errors')};\ndaemon off;\nevents {{}}\nhttp {{\n{kept}access_log off;\n{sites}}}\n"
            )
        self.start(["nginx", "-e", self.path("errors"), "-c", self.path("nginx.conf")], self.front)

    def end(self):
        """Ends each, nginx by the signal at which it ends its workers too."""
        for child in self.children:
            child.terminate()
            try:
                child.wait(10)
            except subprocess.TimeoutExpired:
                child.kill()
                child.wait()

    # ---- what is asked

    def curl(self, path, *more, user=READER, body=None):
        """The status and the body of an answer."""
        words = ["curl", "-sS", "--cacert", self.path("crt"), "--resolve", f"{HOST}:{self.front}:127.0.0.1", "-H", f"Accept: {TAXII}", "-w", "\n%{http_code}"]
        if user:
            words += ["-u", user]
        if body is not None:
            words += ["-H", f"Content-Type: {TAXII}", "--data-binary", "@-"]
        came = subprocess.run([*words, *more, f"https://{HOST}:{self.front}{path}"], input=body, capture_output=True, text=True, check=False)
        text, _, status = came.stdout.rpartition("\n")
        return int(status), text

    def pull(self, port, status=0):
        came = subprocess.run(
            [os.path.join(self.programs, "stix_pull"), "127.0.0.1", str(port), "/api/", COLLECTION, "2"], capture_output=True, text=True,
            stdin=subprocess.DEVNULL, check=False,
        )
        same("status of stix_pull", (status, ""), (came.returncode, came.stderr if not status else ""))
        return came.stdout.splitlines()

    def add(self, *texts):
        """The status and the body of an addition of these texts of objects."""
        return self.curl(OBJECTS, user=WRITER, body=envelope(texts))

    def walk(self, between=lambda: None):
        """The numbers of the objects of a walk of two objects a page; what is to happen between two pages is called there."""
        numbers, following = [], ""
        while True:
            status, text = self.curl(f"{OBJECTS}?limit=2&match%5Bversion%5D=all{following}")
            same("status of a page", 200, status)
            page = json.loads(text)
            numbers += map(number_of, page["objects"])
            if not page["more"]:
                return numbers
            following = f"&next={page['next']}"
            between()


def missing(*tools):
    """The tools that aren't on this machine; nginx needs its JavaScript module too."""
    lacking = [it for it in tools if not shutil.which(it)]
    return lacking + (["nginx's JavaScript module"] if "nginx" in tools and not MODULE else [])


def play(name, kind, programs, parts):
    """Sets up a field of this kind over the programs of a folder, runs the parts in turn, and returns the status."""
    passed = failed = 0
    with tempfile.TemporaryDirectory() as folder:
        os.chmod(folder, 0o755)
        field = kind(os.path.abspath(programs) if programs else "", folder)
        try:
            field.set_up()
            for part in parts:
                try:
                    part(field)
                    passed += 1
                except (Differs, OSError, ValueError, KeyError, subprocess.SubprocessError) as it:
                    failed += 1
                    print(one_line(f"{name}/{part.__name__}: {it}"), flush=True)
        finally:
            field.end()
    return finish(passed, failed)


def skipped(tools, what):
    """Says that these tools aren't here and what wasn't tried, and gives the status."""
    print(f"not here: {', '.join(tools)}; {what}\n0 passed, 0 failed")
    return 0
