#!/usr/bin/env python3
"""Makes the clients as one file, or as a wheel. Nothing is needed but Python.

    make_client.py one-file [FOLDER]    writes bureau-client-VERSION.pyz: copy it to any machine
    make_client.py wheel [FOLDER]       writes bureau_client-VERSION-py3-none-any.whl, as `pip wheel` does

The same sources make the same bytes. It is also what pyproject.toml names for pip and pipx: pipx install ./clients
"""
import base64
import hashlib
import os
import re
import sys
import zipfile

HERE = os.path.dirname(os.path.abspath(__file__))
COMMANDS = {"bureau-client": "bureau_client", "publication": "publication", "zone-csv": "zone_csv"}


def version():
    with open(os.path.join(os.path.dirname(HERE), "CHANGELOG.md"), encoding="utf-8") as file:
        return re.search(r"^## ([0-9.]+)$", file.read(), re.M)[1]


def sources():
    """The files of the package, by their names in an archive."""
    place = os.path.join(HERE, "bureau_client")
    for name in sorted(os.listdir(place)):
        if name.endswith((".py", ".csv", ".txt")):
            with open(os.path.join(place, name), "rb") as file:
                yield "bureau_client/" + name, file.read()


def write(out, files):
    """Writes an archive that tells no time of its own."""
    with zipfile.ZipFile(out, "w", zipfile.ZIP_DEFLATED) as archive:
        for name, data in files:
            entry = zipfile.ZipInfo(name)
            entry.compress_type, entry.external_attr = zipfile.ZIP_DEFLATED, 0o100644 << 16
            archive.writestr(entry, data)


def one_file(folder):
    path = os.path.join(folder, "bureau-client-%s.pyz" % version())
    with open(path, "wb") as out:
        out.write(b"#!/usr/bin/env python3\n")
        write(out, [*sources(), ("__main__.py", b"from bureau_client.__main__ import main\n\nmain()\n")])
    os.chmod(path, 0o755)
    return path


def build_wheel(folder, config_settings=None, metadata_directory=None):
    """What pip calls."""
    name = "bureau_client-" + version()
    points = "".join("%s = bureau_client.__main__:%s\n" % item for item in COMMANDS.items())
    files = [
        *sources(),
        (name + ".dist-info/METADATA", b"Metadata-Version: 2.1\nName: bureau-client\nVersion: %s\nRequires-Python: >=3.9\n" % version().encode()),
        (name + ".dist-info/WHEEL", b"Wheel-Version: 1.0\nGenerator: make_client\nRoot-Is-Purelib: true\nTag: py3-none-any\n"),
        (name + ".dist-info/entry_points.txt", b"[console_scripts]\n" + points.encode()),
    ]
    digests = [(each, base64.urlsafe_b64encode(hashlib.sha256(data).digest()).rstrip(b"=").decode(), len(data)) for each, data in files]
    record = "".join("%s,sha256=%s,%d\n" % row for row in digests) + name + ".dist-info/RECORD,,\n"
    with open(os.path.join(folder, name + "-py3-none-any.whl"), "wb") as out:
        write(out, [*files, (name + ".dist-info/RECORD", record.encode())])
    return name + "-py3-none-any.whl"


def main():
    kinds = {"one-file": one_file, "wheel": build_wheel}
    if len(sys.argv) not in (2, 3) or sys.argv[1] not in kinds:
        print(__doc__, file=sys.stderr)
        sys.exit(2)
    folder = sys.argv[2] if len(sys.argv) > 2 else "."
    os.makedirs(folder, exist_ok=True)
    print("made " + os.path.join(folder, os.path.basename(kinds[sys.argv[1]](folder))))


if __name__ == "__main__":
    main()
