#!/usr/bin/env python3
"""The package, unpacked in an empty folder, with nothing else of the repository in reach: the sample
runs there."""
import importlib.util
import os
import re
import shutil
import subprocess
import sys
import tarfile
import unittest
import zipfile

from service import PROGRAM, SAMPLE, TOP, Client, Desk, check, folder, main, same
import service

ENVIRONMENT = {"PATH": "/usr/sbin:/usr/bin:/sbin:/bin", "HOME": folder(), "TMPDIR": folder()}


def read(path):
    with open(path, "rb") as file:
        return file.read()


def hidden(place, line):
    """Runs a line of shell in the folder, the repository covered by an empty folder where that may be done."""
    cover = [
        "unshare",
        "-m",
        "sh",
        "-c",
        'mount -t tmpfs none "$1" && cd "$2" && exec sh -c "$3"',
        "sh",
        TOP,
        place,
        line,
    ]
    if (
        subprocess.run(cover[:4] + ['mount -t tmpfs none "$1"', "sh", TOP], capture_output=True).returncode
        != 0
    ):
        cover = ["sh", "-c", 'cd "$1" && exec sh -c "$2"', "sh", place, line]
    done = subprocess.run(cover, env=ENVIRONMENT, capture_output=True)
    return done.returncode, done.stdout


def set_up(deb):
    """The package makes the user and the folder, and leaves the folder when it goes."""
    place, tools = folder(), folder()
    subprocess.run(["dpkg-deb", "-e", deb, place], check=True)
    for name, line in (("getent", "exit 2"), ("adduser", ""), ("install", ""), ("systemctl", ""), ("rmdir", "")):
        with open(os.path.join(tools, name), "w") as tool:
            tool.write('#!/bin/sh\necho %s "$@" >>%s/said\n%s\n' % (name, tools, line))
        os.chmod(os.path.join(tools, name), 0o755)
    for script, word in (("postinst", "configure"), ("prerm", "remove"), ("postrm", "purge")):
        run = subprocess.run(["sh", os.path.join(place, script), word], env={"PATH": tools + ":/usr/bin:/bin"}, capture_output=True)
        same(script + " ends well", (run.returncode, run.stderr), (0, b""))
    said = read(tools + "/said").decode()
    check("the user", "adduser --system --group --no-create-home --home /var/lib/bureau" in said, said)
    check("the folder, for that user alone", "install -d -o bureau -g bureau -m 700 /var/lib/bureau" in said, said)


def calls_in(group):
    """The system calls of a group, as systemd knows it."""
    text = subprocess.run(["systemd-analyze", "syscall-filter", group], capture_output=True, text=True).stdout
    found = set()
    for name in (line.strip() for line in text.splitlines()[1:]):
        if name.startswith("@"):
            found |= calls_in(name)
        elif name and not name.startswith("#"):
            found.add(name)
    return found


def calls_of_a_desk(program):
    """The system calls of a desk that is made a change and asked a report, not as root, in each of its threads."""
    place = folder()
    os.chmod(place, 0o777)
    program = shutil.copy(program, place + "/bureau")
    user = {"user": 65534, "group": 65534} if os.geteuid() == 0 else {}
    shutil.copy(SAMPLE + "/callers.csv", place + "/callers.csv")
    same("a store that is not root's", subprocess.run([program, "init", "store", "callers.csv"], cwd=place, stdout=subprocess.DEVNULL, **user).returncode, 0)
    trace, port = place + "/trace", str(service.free_port())
    line = ["strace", "-f", "-qq", "-o", trace, program, "serve", "--port", port, "--connections", "3", "store"]
    desk = subprocess.Popen(line, cwd=place, stdout=subprocess.PIPE, text=True, **user)
    desk.stdout.readline()
    url = "http://127.0.0.1:" + port
    service.exchange(url, "PUT", "/zones/A", "north-token", 1, b"SYSMOD,STATE\nHBB77E0,APPLIED\n")
    service.exchange(url, "POST", "/publish", "publisher-token", 1, read(TOP + "/examples/site/publication.txt"))
    same("it answers", service.exchange(url, "GET", "/zones/A/errsysmods", "north-token")[0], 200)
    same("and ends", desk.wait(60), 0)
    return set(re.findall(r"^\d+ +(\w+)\(", read(trace).decode("ascii", "replace"), re.M))


made, unproved = folder(), folder()
FILES = set(subprocess.run(["git", "ls-files"], cwd=TOP, capture_output=True, text=True).stdout.split())


def is_there(files, path):
    return path in files or any(name.startswith(path.rstrip("/") + "/") for name in files)


def named_in_vain(root):
    """Files of the repository that a page of the package names, and that the package has not."""
    inside = {os.path.relpath(os.path.join(at, name), root) for at, _, names in os.walk(root) for name in names}
    vain = []
    for page in sorted(name for name in inside if name.endswith(".md")):
        text = read(os.path.join(root, page)).decode()
        for found in re.finditer(r"[A-Za-z0-9_.][A-Za-z0-9_.-]*(/[A-Za-z0-9_.-]+)+", text):
            path = os.path.normpath(found[0].rstrip("."))
            paths = {path, os.path.normpath(os.path.join(os.path.dirname(page), path))}
            after = text[found.end() : found.end() + 25]
            if any(is_there(FILES, one) and not is_there(inside, one) for one in paths) and "the repository" not in after:
                vain.append((page, path))
    return vain


def make(target):
    run = subprocess.run(
        [TOP + "/tools/make-package", "--unproved", target], env={**os.environ, "BUREAU_PROGRAM": PROGRAM}, capture_output=True, text=True
    )
    same("it is made", (run.returncode, run.stderr), (0, ""))


def setUpModule():
    """Makes the package, and unpacks the archive."""
    global archive, place
    make(made)
    archive = [name for name in sorted(os.listdir(made)) if name.endswith(".tar.gz")]
    same("one archive", len(archive), 1)
    empty = folder()
    with tarfile.open(os.path.join(made, archive[0])) as tar:
        tar.extractall(empty, filter="data") if hasattr(tarfile, "data_filter") else tar.extractall(empty)
    place = os.path.join(empty, archive[0][:-7])


class Package(unittest.TestCase):
    def test_what_was_not_proved_is_not_packed(self):
        subprocess.run(["cp", "-a", "tools", "launcher", unproved], cwd=TOP, check=True)
        run = subprocess.run([unproved + "/tools/make-package", unproved], env={**os.environ, "BUREAU_PROGRAM": PROGRAM}, capture_output=True, text=True)
        check("a program that was not proved here is not packed", run.returncode == 1 and "was not proved here" in run.stderr, run.stderr)

    def test_it_is_made_the_same_again(self):
        again = folder()
        make(again)
        for name in os.listdir(made):
            same(
                "the same bytes again: " + name,
                read(os.path.join(made, name)) == read(os.path.join(again, name)),
                True,
            )

    def test_what_is_in_the_archive(self):
        same("one folder", os.listdir(os.path.dirname(place)), [archive[0][:-7]])
        libraries = subprocess.run(["ldd", place + "/bureau"], capture_output=True, text=True).stdout
        check(
            "libc alone",
            all(
                any(part in line for part in ("libc.so", "ld-linux", "linux-vdso")) for line in libraries.splitlines()
            ),
            libraries,
        )
        same("the hold book", hidden(place, "./bureau holds examples/holddata.txt | tail -n 1"), (0, b"ROWS 39\n"))
        same(
            "the sample desk",
            hidden(place, "./bureau replay examples/desk/callers.csv examples/desk/*.http"),
            (0, read(SAMPLE + "/replies.txt")),
        )
        same(
            "requests and replies",
            hidden(place, "examples/pairs examples/desk/callers.csv examples/desk/*.http | grep -c =="),
            (0, b"19\n"),
        )
        same(
            "a zone's list",
            hidden(place, "clients/zone-csv zone TGT1 examples/lists/tgt1.smplist.txt 2>/dev/null"),
            (0, read(TOP + "/examples/lists/tgt1.csv")),
        )
        same(
            "a publication",
            hidden(place, "clients/publication examples/lists/smpptfin.txt 2>/dev/null"),
            (1, read(TOP + "/examples/lists/publication.txt")),
        )
        version = hidden(place, "./bureau --version 2>&1")[1].decode().split()[-1]
        check(
            "the version is that of the archive and of CHANGELOG.md",
            archive[0].startswith("bureau-%s-" % version)
            and hidden(place, "grep -c '^## %s' CHANGELOG.md" % version) == (0, b"1\n"),
            version,
        )
        check("the licence is there", b"Apache-2.0 OR MIT" in read(place + "/LICENSE"))
        same("with its texts", [os.path.exists(place + "/LICENSE-" + name) for name in ("APACHE", "MIT")], [True, True])
        if FILES:
            same("no page names what isn't there", named_in_vain(place), [])
        check("README says that no toolchain is needed", b"no toolchain" in b" ".join(read(place + "/README.md").split())[:1500])

    def test_the_clients_alone(self):
        """As one file and as a wheel."""
        alone = folder()
        one, wheel = ([os.path.join(made, name) for name in os.listdir(made) if name.endswith(end)][0] for end in (".pyz", ".whl"))
        shutil.copy(one, alone + "/zone-csv")
        shutil.copy(place + "/examples/lists/tgt1.smplist.txt", alone)
        same("one file", hidden(alone, "./zone-csv zone TGT1 tgt1.smplist.txt 2>/dev/null"), (0, read(TOP + "/examples/lists/tgt1.csv")))
        has_pip = importlib.util.find_spec("pip") is not None
        install = ["pip", "install", "--quiet", "--no-index", "--no-deps", "--root-user-action=ignore", "--target", alone + "/at"]
        if has_pip:
            same("the wheel is one for pip", subprocess.run([sys.executable, "-m", *install, wheel], capture_output=True).returncode, 0)
        else:
            zipfile.ZipFile(wheel).extractall(alone + "/at")
        line = "PYTHONPATH=at at/bin/%s 2>/dev/null" if has_pip else "PYTHONPATH=at python3 -m bureau_client %s 2>/dev/null"
        same("with the client", hidden(alone, line % "bureau-client fault 13"), (0, b"the hold or release has no REASON with a value: add REASON(..)\n"))
        same("and zone-csv", hidden(alone, line % "zone-csv zone TGT1 tgt1.smplist.txt"), (0, read(TOP + "/examples/lists/tgt1.csv")))
        if has_pip:
            words = ["pip", "wheel", "--quiet", "--no-index", "--no-deps", "--wheel-dir", alone + "/made", place + "/clients"]
            same("pip makes it too", subprocess.run([sys.executable, "-m", *words], capture_output=True).returncode, 0)
            same("the same", read(os.path.join(alone, "made", os.path.basename(wheel))), read(wheel))

    def test_its_client_with_its_desk(self):
        service.PROGRAM, service.CLIENT = place + "/bureau", place + "/clients/bureau-client"
        desk = Desk(place + "/examples/desk/callers.csv")
        same(
            "publish",
            Client(desk.url, "publisher-token").run("publish", place + "/examples/site/publication.txt")[0],
            0,
        )
        north = Client(desk.url, "north-token")
        same("sync", north.run("sync", place + "/examples/site/north")[0], 0)
        same("errsysmods", north.run("errsysmods", "MVSPROD")[1].splitlines()[-1], "ROWS 2")
        same("overview", north.run("overview")[1].splitlines()[-2:], ["ROWS 1", "PUBLISHED SYSMODS 8 HOLDS 5"])
        desk.end()

    @unittest.skipUnless(shutil.which("dpkg-deb"), "dpkg-deb is not there")
    def test_the_debian_package(self):
        debs = [name for name in os.listdir(made) if name.endswith(".deb")]
        root = folder()
        same(
            "the Debian package unpacks",
            subprocess.run(["dpkg-deb", "-x", os.path.join(made, debs[0]), root]).returncode,
            0,
        )
        same(
            "and runs",
            hidden(root, "usr/bin/bureau holds usr/lib/bureau/examples/holddata.txt | tail -n 1"),
            (0, b"ROWS 39\n"),
        )
        with open(root + "/usr/lib/bureau/deploy/bureau.service") as unit:
            named = re.findall(r"^(?:Documentation=.*file://|ExecStart=)(/[^ \n]*)", unit.read(), re.M)
        same("the unit names what is there", [path for path in named if not os.path.exists(root + path)], [])
        same("the unit names its page and the program", len(named), 2)
        same("with the client", hidden(root, "usr/bin/bureau-client help | head -n 1")[0], 0)
        same("which finds what is beside it", hidden(root, "usr/bin/bureau-client overview 2>&1 | grep -c 'there is no token'"), (0, b"1\n"))
        same(
            "each command is found",
            [
                hidden(root, line)[0]
                for line in (
                    "usr/bin/zone-csv zone TGT1 usr/lib/bureau/examples/lists/tgt1.smplist.txt",
                    "usr/bin/publication usr/lib/bureau/examples/lists/publication.txt",
                )
            ],
            [0, 0],
        )
        commands = sorted(os.listdir(root + "/usr/bin"))
        same("these are the commands", commands, ["bureau", "bureau-client", "publication", "zone-csv"])
        same("each has its page", sorted(os.listdir(root + "/usr/share/man/man1")), sorted(name + ".1.gz" for name in commands))
        for name in commands:
            page = subprocess.run(["man", "-l", root + "/usr/share/man/man1/%s.1.gz" % name], capture_output=True, text=True)
            check("which reads", name in page.stdout and page.stderr == "", page.stderr)
        control = subprocess.run(["dpkg-deb", "-f", os.path.join(made, debs[0]), "Depends"], capture_output=True, text=True).stdout
        check("what it needs", re.search(r"libc6 \(>= 2\.\d+\)", control) and "python3" in control and "adduser" in control, control)
        wanted = max(re.findall(rb"GLIBC_2\.(\d+)", read(PROGRAM)), key=int).decode()
        check("of libc6 the version of the program", "2.%s)" % wanted in control, (wanted, control))
        same("no page names what isn't there", named_in_vain(root + "/usr/lib/bureau") if FILES else [], [])
        set_up(os.path.join(made, debs[0]))
        unit = root + "/lib/systemd/system/bureau.service"
        same("the unit is installed", read(unit), read(TOP + "/deploy/bureau.service"))
        units = [TOP + "/deploy/bureau-report" + kind for kind in (".timer", ".service")]
        run = subprocess.run(["systemd-analyze", "verify", "--man=no", *units], capture_output=True, text=True)
        check("systemd reads the units of the report", run.returncode == 0 and "bureau-report" not in run.stderr, run.stderr)
        completion = read(root + "/usr/share/bash-completion/completions/bureau-client")
        check("what bash completes is there", b"complete -o filenames -F _bureau_client bureau-client" in completion, completion)
        line = ["systemd-analyze", "security", "--offline=yes", "--threshold=30", unit]
        run = subprocess.run(line, capture_output=True, text=True)
        check("systemd calls it exposed by less than 3", run.returncode == 0, run.stdout[-300:] + run.stderr)
        allowed = calls_in("@system-service") - calls_in("@privileged") - calls_in("@resources")
        called = calls_of_a_desk(place + "/bureau")
        check("the unit lets a desk do what it does", len(called) > 10 and called <= allowed, called - allowed)
        run = subprocess.run(["lintian", "--allow-root", "--fail-on", "error", os.path.join(made, debs[0])], capture_output=True, text=True)
        check("lintian knows no error", run.returncode == 0, run.stdout + run.stderr)
        same(
            "publication finds the program",
            hidden(
                root, "usr/lib/bureau/clients/publication usr/lib/bureau/examples/lists/smpptfin.txt 2>/dev/null"
            )[0],
            1,
        )


if __name__ == "__main__":
    main("package")
