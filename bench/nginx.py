"""nginx beside a desk: it serves one file on a port of the loopback, and wrk asks either."""
import os
import shutil
import socket
import subprocess
import sys
import time

PROGRAM = shutil.which("nginx") or "/usr/sbin/nginx"
SETTINGS = """worker_processes 1; daemon off; pid tmp/pid; error_log tmp/error.log; user root;
events { worker_connections 4096; }
http { access_log off; keepalive_requests 100000000; client_body_temp_path tmp; proxy_temp_path tmp;
fastcgi_temp_path tmp; uwsgi_temp_path tmp; scgi_temp_path tmp;
server { listen 127.0.0.1:%d; root %s; } }
"""


def is_there():
    return os.path.exists(PROGRAM) and shutil.which("wrk") is not None


def free_port():
    with socket.socket() as probe:
        probe.bind(("127.0.0.1", 0))
        return probe.getsockname()[1]


class Nginx:
    """nginx with the file `zones` of this text, in a folder that is made for it."""

    def __init__(self, place, text):
        os.makedirs(place + "/tmp")
        with open(place + "/zones", "wb") as out:
            out.write(text)
        self.port = free_port()
        with open(place + "/nginx.conf", "w") as out:
            out.write(SETTINGS % (self.port, place))
        self.process = subprocess.Popen([PROGRAM, "-p", place, "-c", place + "/nginx.conf"])
        time.sleep(0.5)

    def end(self):
        self.process.terminate()
        self.process.wait()


def rate(port, token, connections=1, is_kept=True, seconds=3):
    """Answers in a second to GET /zones, on so many connections, each kept or with one request, asked for by wrk."""
    words = ["wrk", "-t1", "-c%d" % connections, "-d%d" % seconds, "-H", "bureau-token: " + token]
    words += [] if is_kept else ["-H", "connection: close"]
    told = subprocess.run(
        words + ["http://127.0.0.1:%d/zones" % port], check=True, capture_output=True, text=True
    ).stdout
    if "Non-2xx" in told:
        sys.exit(told)
    return float(told.split("Requests/sec:")[1].split()[0])
