"""Makes the wheel and the source archive of this folder for pip (PEP 517), with Python's own library alone.

A shared library libpalmheap.so.* in the folder palmheap goes into the wheel. The same files give the same bytes.
"""

import base64
import hashlib
import io
import os
import re
import tarfile
import zipfile

HERE = os.path.dirname(os.path.abspath(__file__))


def field(name):
    with open(f"{HERE}/pyproject.toml", encoding="utf-8") as it:
        return re.search(rf'^{name} = "(.*)"$', it.read(), re.M)[1]


def files():
    """Returns the files of the package, by their paths in the wheel."""
    names = sorted(it for it in os.listdir(f"{HERE}/palmheap") if it.endswith(".py") or it == "py.typed" or ".so" in it)
    found = {}
    for name in names:
        with open(f"{HERE}/palmheap/{name}", "rb") as it:
            found[f"palmheap/{name}"] = it.read()
    return found


def metadata():
    lines = ["Metadata-Version: 2.1"]
    lines += [f"{key}: {field(of)}" for key, of in (("Name", "name"), ("Version", "version"), ("Summary", "description"))]
    return "\n".join([*lines, f"Requires-Python: {field('requires-python')}", ""]).encode()


def digest(content):
    return base64.urlsafe_b64encode(hashlib.sha256(content).digest()).rstrip(b"=").decode()


def build_wheel(folder, config_settings=None, metadata_directory=None):
    parts, info = files(), f"palmheap-{field('version')}.dist-info"
    tag = "py3-none-linux_x86_64" if any(".so" in it for it in parts) else "py3-none-any"
    parts[f"{info}/METADATA"] = metadata()
    pure = str(tag.endswith("any")).lower()
    parts[f"{info}/WHEEL"] = f"Wheel-Version: 1.0\nGenerator: palmheap\nRoot-Is-Purelib: {pure}\nTag: {tag}\n".encode()
    rows = [f"{path},sha256={digest(content)},{len(content)}" for path, content in parts.items()]
    parts[f"{info}/RECORD"] = "\n".join([*rows, f"{info}/RECORD,,", ""]).encode()
    name = f"palmheap-{field('version')}-{tag}.whl"
    with zipfile.ZipFile(f"{folder}/{name}", "w", zipfile.ZIP_DEFLATED) as wheel:
        for path, content in parts.items():
            entry = zipfile.ZipInfo(path, (1980, 1, 1, 0, 0, 0))
            entry.external_attr, entry.compress_type = 0o644 << 16, zipfile.ZIP_DEFLATED
            wheel.writestr(entry, content)
    return name


def build_sdist(folder, config_settings=None):
    top = f"palmheap-{field('version')}"
    parts = {**files(), "PKG-INFO": metadata()}
    for name in ("pyproject.toml", "build.py"):
        with open(f"{HERE}/{name}", "rb") as it:
            parts[name] = it.read()
    with tarfile.open(f"{folder}/{top}.tar.gz", "w:gz", format=tarfile.PAX_FORMAT) as archive:
        for path, content in sorted(parts.items()):
            entry = tarfile.TarInfo(f"{top}/{path}")
            entry.size = len(content)
            archive.addfile(entry, io.BytesIO(content))
    return f"{top}.tar.gz"
