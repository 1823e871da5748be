"""wheel.py LIBRARY VERSION FOLDER: writes a wheel with the library in it to the folder."""

import base64
import hashlib
import os
import sys
import sysconfig
import zipfile

HERE = os.path.dirname(os.path.abspath(__file__))

METADATA = """\
Metadata-Version: 2.1
Name: daachorse
Version: {version}
Summary: Many patterns searched at once, by a proved library
License: MIT OR Apache-2.0
Requires-Python: >=3.8

"""

WHEEL = """\
Wheel-Version: 1.0
Generator: wheel.py
Root-Is-Purelib: false
Tag: {tag}
"""


def contents(library, version, tag):
    """Yields the name and the bytes of each file."""
    package = os.path.join(HERE, "daachorse")
    paths = {f"daachorse/{name}": os.path.join(package, name) for name in os.listdir(package) if name.endswith((".py", ".typed"))}
    paths["daachorse/libdaachorse.so"] = library
    about = f"daachorse-{version}.dist-info"
    for name in ("LICENSE-APACHE", "LICENSE-MIT"):
        paths[f"{about}/{name}"] = os.path.join(HERE, "..", "..", name)
    for name in sorted(paths):
        with open(paths[name], "rb") as file:
            yield name, file.read()
    yield f"{about}/METADATA", METADATA.format(version=version).encode()
    yield f"{about}/WHEEL", WHEEL.format(tag=tag).encode()


def main():
    library, version, folder = sys.argv[1:]
    tag = "py3-none-" + sysconfig.get_platform().replace("-", "_").replace(".", "_")
    path, record = os.path.join(folder, f"daachorse-{version}-{tag}.whl"), f"daachorse-{version}.dist-info/RECORD"
    lines = []
    with zipfile.ZipFile(path, "w", zipfile.ZIP_DEFLATED) as wheel:
        for name, data in contents(library, version, tag):
            digest = base64.urlsafe_b64encode(hashlib.sha256(data).digest()).decode().rstrip("=")
            lines.append(f"{name},sha256={digest},{len(data)}\n")
            # The same files make the same wheel: no time is written.
            wheel.writestr(zipfile.ZipInfo(name), data, zipfile.ZIP_DEFLATED)
        wheel.writestr(zipfile.ZipInfo(record), "".join([*lines, f"{record},,\n"]))
    print(path)


main()
