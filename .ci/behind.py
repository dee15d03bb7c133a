"""A producer, and nginx before it by the configuration of examples/deploy, for tests: all of it on 127.0.0.1 and in folders of its own."""
import contextlib
import datetime
import functools
import http.client
import json
import os
import re
import shutil
import socket
import ssl
import subprocess
import time

PLACES = ("board", "feeds", "feeders")


def free_port():
    with socket.create_server(("127.0.0.1", 0)) as listener:
        return listener.getsockname()[1]


def await_port(port, process, seconds=20):
    """Waits until somebody listens there."""
    end = time.monotonic() + seconds
    while time.monotonic() < end and process.poll() is None:
        with contextlib.suppress(OSError), socket.create_connection(("127.0.0.1", port), 1):
            return
        time.sleep(0.05)
    raise RuntimeError("nobody listens at port %d" % port)


def later(**parts):
    return (datetime.datetime.now(datetime.timezone.utc) + datetime.timedelta(**parts)).strftime("%Y-%m-%dT%H:%M:%SZ")


class Producer:
    """`siri lite`, or another command, at a port that stays the same, however often it is started."""

    def __init__(self, siri, folder, command="lite", **environment):
        self.siri, self.folder, self.command, self.port, self.process = os.path.abspath(siri), folder, command, free_port(), None
        self.environment = {**os.environ, **environment}
        os.makedirs(folder)

    def start(self):
        with open(os.path.join(self.folder, "errors"), "ab") as errors, open(os.path.join(self.folder, "output"), "ab") as output:
            file = ["items"] if self.command == "keep" else []
            self.process = subprocess.Popen([self.siri, self.command, "AGENCY", "127.0.0.1:%d" % self.port, *file, "1000000"], cwd=self.folder,
                                            env=self.environment, stdin=subprocess.DEVNULL, stdout=output, stderr=errors)
        await_port(self.port, self.process)

    def kill(self):
        if self.process:
            self.process.kill()
            self.process.wait()
            self.process = None

    def post(self, document):
        """What is answered to a message: its status, and the document or the line."""
        client = http.client.HTTPConnection("127.0.0.1", self.port, timeout=20)
        client.request("POST", "/", document if isinstance(document, (str, bytes)) else json.dumps(document))
        response = client.getresponse()
        told = response.read()
        client.close()
        return response.status, told

    def feed(self, delivery):
        status, told = self.post({"Siri": {"ServiceDelivery": delivery}})
        if status != 200 or b'"Status":true' not in told:
            raise RuntimeError("a feed is answered %d %s" % (status, told.decode(errors="replace")))


class Nginx:
    """nginx as examples/deploy/nginx/wurtelim.conf has it, but for the ports, the places of files and the producer's port. With
    makes_requests, queries.conf stands before the producer."""

    def __init__(self, folder, deploy, pages, producer_port, makes_requests=False):
        self.folder, self.process = folder, None
        self.answers = os.path.join("/dev/shm" if os.access("/dev/shm", os.W_OK) else folder, "wurtelim-answers-%d" % os.getpid())
        self.public, self.feeds, self.plain = free_port(), free_port(), free_port()
        for name in ("tls", "www", "temporary"):
            os.makedirs(os.path.join(folder, name))
        shutil.copytree(pages, os.path.join(folder, "www", "board"))
        self.certificates()
        door = producer_port
        if makes_requests:
            door = free_port()
            self.copy(deploy, "queries.conf", (("127.0.0.1:7000", "127.0.0.1:%d" % door), ("127.0.0.1:7001", "127.0.0.1:%d" % producer_port)))
        self.copy(deploy, "wurtelim.conf", (("127.0.0.1:7001", "127.0.0.1:%d" % door), ("/etc/wurtelim/tls", os.path.join(folder, "tls")),
                            ("/var/www/wurtelim", os.path.join(folder, "www")), ("/run/wurtelim-answers", self.answers),
                            ("listen 80;", "listen 127.0.0.1:%d;" % self.plain), ("listen 443 ssl;", "listen 127.0.0.1:%d ssl;" % self.public),
                            ("listen 8443 ssl;", "listen 127.0.0.1:%d ssl;" % self.feeds)))
        kept = "".join("%s_temp_path %s/temporary/%s;\n" % (name, folder, name) for name in ("client_body", "proxy", "fastcgi", "uwsgi", "scgi"))
        types = "/etc/nginx/mime.types"
        with open(os.path.join(folder, "nginx.conf"), "w") as file:
            file.write("daemon off;\nworker_processes 2;\npid %s/pid;\nerror_log %s/error.log;\nevents { worker_connections 4096; }\nhttp {\n%s"
                       "access_log %s/access.log;\ninclude %s;\ninclude %s/*.conf.copy;\n}\n" % (folder, folder, kept, folder, types, folder))

    def copy(self, deploy, name, changes):
        """A copy of a configuration, with these changes and without addresses of IPv6."""
        with open(os.path.join(deploy, "nginx", name)) as file:
            text = file.read()
        for there, here in changes:
            if there not in text:
                raise RuntimeError("%s hasn't “%s”" % (name, there))
            text = text.replace(there, here)
        with open(os.path.join(self.folder, name + ".copy"), "w") as file:
            file.write(re.sub(r"^ *listen \[::\].*\n", "", text, flags=re.M))

    def certificates(self):
        """A certificate of each server, an authority of feeders and a feeder of it, and a feeder of nobody."""
        def openssl(*words):
            subprocess.run(["openssl", *words], check=True, cwd=os.path.join(self.folder, "tls"), stdout=subprocess.DEVNULL, stderr=subprocess.PIPE)

        for name in (*PLACES, "stranger"):
            openssl("req", "-x509", "-newkey", "ec", "-pkeyopt", "ec_paramgen_curve:prime256v1", "-nodes", "-days", "2", "-subj", "/CN=" + name,
                    "-addext", "subjectAltName=IP:127.0.0.1", "-keyout", name + ".key", "-out", name + ".crt")
        openssl("req", "-newkey", "ec", "-pkeyopt", "ec_paramgen_curve:prime256v1", "-nodes", "-subj", "/CN=feeder", "-keyout", "feeder.key", "-out", "feeder.csr")
        openssl("x509", "-req", "-in", "feeder.csr", "-CA", "feeders.crt", "-CAkey", "feeders.key", "-CAcreateserial", "-days", "2", "-out", "feeder.crt")

    def edit(self, there, here):
        """Changes the copy of the configuration that is served, before a start."""
        path = os.path.join(self.folder, "wurtelim.conf.copy")
        with open(path) as file:
            text = file.read()
        if there not in text:
            raise RuntimeError("wurtelim.conf hasn't “%s”" % there)
        with open(path, "w") as file:
            file.write(text.replace(there, here))

    def words(self, *more):
        return [shutil.which("nginx", path=os.environ["PATH"] + ":/usr/sbin"), "-p", self.folder, "-c", os.path.join(self.folder, "nginx.conf"), *more]

    def test(self):
        """What `nginx -t` tells where it doesn't take the configuration, or warns."""
        told = subprocess.run(self.words("-t"), capture_output=True, text=True, check=False)
        lines = [line for line in told.stderr.splitlines() if not re.search(r"syntax is ok|test is successful|\"user\" directive", line)]
        return "\n".join(lines) if told.returncode or lines else ""

    def start(self):
        self.process = subprocess.Popen(self.words(), stdin=subprocess.DEVNULL, stdout=subprocess.DEVNULL, stderr=subprocess.DEVNULL)
        await_port(self.public, self.process)

    def stop(self):
        if self.process:
            self.process.terminate()
            self.process.wait()
            self.process = None
        shutil.rmtree(self.answers, ignore_errors=True)

    @functools.cache
    def context(self, certificate=None):
        """TLS of a client that trusts these servers alone, with a certificate of its own if one is named."""
        context = ssl.SSLContext(ssl.PROTOCOL_TLS_CLIENT)
        for name in ("board", "feeds"):
            context.load_verify_locations(os.path.join(self.folder, "tls", name + ".crt"))
        if certificate:
            context.load_cert_chain(*[os.path.join(self.folder, "tls", certificate + end) for end in (".crt", ".key")])
        return context

    def client(self, port, certificate=None, source=None, timeout=20):
        return http.client.HTTPSConnection("127.0.0.1", port, context=self.context(certificate), timeout=timeout,
                                           source_address=(source, 0) if source else None)

    def ask(self, target, method="GET", port=None, body=None, certificate=None, headers=None):
        """The status, the body and the heads that are answered."""
        client = self.client(port or self.public, certificate)
        client.request(method, target, body, headers or {})
        response = client.getresponse()
        told = response.read()
        client.close()
        return response.status, told, response.headers
