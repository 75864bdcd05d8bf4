"""A real nginx in front of desks, from deploy/nginx.conf, on free ports and with a certificate
of its own."""
import atexit
import os
import shutil
import socket
import ssl
import subprocess
import sys
import time

from service import TOP, folder, free_port, write

SAMPLE_FRONT = os.path.join(TOP, "deploy")
NGINX = shutil.which("nginx") or "/usr/sbin/nginx"


class Front:
    """PORTS are those of the desks 1 and 2; DESKS tells the number of the desk of each token. The caller with the
    token `north-token` has the name NORTH-TOKEN here."""

    def __init__(self, ports, desks, plain=False):
        self.place, self.port = folder(), free_port()
        with open(os.path.join(SAMPLE_FRONT, "nginx.conf")) as file:
            conf = file.read()
        for number, port in enumerate(ports, 1):
            conf = conf.replace("127.0.0.1:%d " % (8080 + number), "127.0.0.1:%d " % port)
        conf = conf.replace(
            "listen 8443 ssl;", "listen 127.0.0.1:%d%s;" % (self.port, "" if plain else " ssl")
        )
        write(self.place + "/nginx.conf", conf)
        self.deal_out(desks)
        os.mkdir(self.place + "/tmp")
        shutil.copytree(os.path.join(TOP, "clients", "page"), self.place + "/page") if os.path.isdir(
            TOP + "/clients/page"
        ) else None
        self.certificate = self.place + "/certificate.pem"
        subprocess.run(
            [
                "openssl",
                "req",
                "-x509",
                "-newkey",
                "rsa:2048",
                "-nodes",
                "-days",
                "2",
                "-subj",
                "/CN=localhost",
                "-addext",
                "subjectAltName=IP:127.0.0.1,DNS:localhost",
                "-keyout",
                self.place + "/key.pem",
                "-out",
                self.certificate,
            ],
            check=True,
            stderr=subprocess.DEVNULL,
        )
        user = ["-g", "daemon off; user root;"] if os.geteuid() == 0 else ["-g", "daemon off;"]
        self.process = subprocess.Popen(
            [NGINX, "-p", self.place, "-c", "nginx.conf", *user],
            stdout=subprocess.DEVNULL,
            stderr=subprocess.DEVNULL,
        )
        # a test that fails in its midst leaves none behind
        atexit.register(self.process.terminate)
        self.url = "%s://127.0.0.1:%d" % ("http" if plain else "https", self.port)
        self.context = ssl.create_default_context(cafile=self.certificate)
        for _ in range(100):
            try:
                socket.create_connection(("127.0.0.1", self.port)).close()
                return
            except OSError:
                time.sleep(0.05)
        command = [NGINX, "-p", self.place, "-c", "nginx.conf", "-t"]
        sys.exit("nginx does not start: " + subprocess.run(command, capture_output=True, text=True).stderr)

    def deal_out(self, desks):
        names = "".join('"%s" "%s";\n' % (token, token.upper()) for token in ("publisher-token", *desks))
        write(self.place + "/callers.map", names)
        lines = "".join('"%s" desk_%d;\n' % (token.upper(), desk) for token, desk in desks.items())
        write(self.place + "/desks.map", '"PUBLISHER-TOKEN" publisher;\n' + lines)

    def reload(self):
        """Lets nginx read its files again, and waits until the processes that read the old ones have ended."""
        old = self.workers()
        command = [NGINX, "-p", self.place, "-c", "nginx.conf", "-s", "reload"]
        subprocess.run(command, check=True, stderr=subprocess.DEVNULL)
        while self.workers() & old or not self.workers():
            time.sleep(0.05)

    def workers(self):
        with open("/proc/%d/task/%d/children" % (self.process.pid, self.process.pid)) as file:
            return set(file.read().split())

    def end(self):
        self.process.terminate()
        self.process.wait()
