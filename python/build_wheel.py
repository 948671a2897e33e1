"""Makes the wheel of the package, as pip asks for it (PEP 517), with Python alone.

A wheel that has the library libdocbin.so is for this machine's platform; one without, which runs the program, is for any."""
import base64
import hashlib
import io
import os
import re
import sysconfig
import tarfile
import zipfile

HERE = os.path.dirname(os.path.abspath(__file__))
FILES = ("__init__.py", "__main__.py", "backends.py", "document.py", "fitting.py", "names.py", "refusals.py", "py.typed")
LIBRARY = "libdocbin.so"
SOURCES = ("pyproject.toml", "build_wheel.py")


def project():
    """The keys of the table `project` that are texts."""
    with open(f"{HERE}/pyproject.toml", encoding="utf8") as file:
        return dict(re.findall(r'^([a-z-]+) = "(.*)"$', file.read().partition("[project]")[2], re.M))


def named():
    return "{name}-{version}".format(**project())


def platform_tag(has_library):
    return "py3-none-" + (re.sub("[-.]", "_", sysconfig.get_platform()) if has_library else "any")


def metadata():
    known = project()
    return (f"Metadata-Version: 2.1\nName: {known['name']}\nVersion: {known['version']}\nSummary: {known['description']}\n"
            f"Requires-Python: {known['requires-python']}\n").encode()


def read(name):
    with open(f"{HERE}/docbin/{name}", "rb") as file:
        return file.read()


def build_wheel(wheel_directory, config_settings=None, metadata_directory=None):
    has_library = os.path.exists(f"{HERE}/docbin/{LIBRARY}")
    tag, info = platform_tag(has_library), f"{named()}.dist-info"
    root = "false" if has_library else "true"
    files = [(f"docbin/{it}", read(it)) for it in (*FILES, *[LIBRARY] * has_library)]
    files += [(f"{info}/METADATA", metadata()),
              (f"{info}/WHEEL", f"Wheel-Version: 1.0\nGenerator: docbin\nRoot-Is-Purelib: {root}\nTag: {tag}\n".encode())]
    record = [f"{name},sha256={base64.urlsafe_b64encode(hashlib.sha256(data).digest()).rstrip(b'=').decode()},{len(data)}" for name, data in files]
    files.append((f"{info}/RECORD", "\n".join([*record, f"{info}/RECORD,,", ""]).encode()))
    wheel = f"{named()}-{tag}.whl"
    with zipfile.ZipFile(os.path.join(wheel_directory, wheel), "w", zipfile.ZIP_DEFLATED) as archive:
        for name, data in files:
            archive.writestr(name, data)
    return wheel


def build_sdist(sdist_directory, config_settings=None):
    """The sources of the package alone: what is made of them runs the program."""
    name = f"{named()}.tar.gz"
    with tarfile.open(os.path.join(sdist_directory, name), "w:gz") as archive:
        for it in (*SOURCES, *(f"docbin/{it}" for it in FILES)):
            archive.add(f"{HERE}/{it}", f"{named()}/{it}")
        entry = tarfile.TarInfo(f"{named()}/PKG-INFO")
        entry.size = len(metadata())
        archive.addfile(entry, io.BytesIO(metadata()))
    return name
