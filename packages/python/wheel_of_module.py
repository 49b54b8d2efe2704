# SPDX-License-Identifier: MIT OR Apache-2.0
"""A build backend for pip (PEP 517) that needs nothing but Python: the package's files, what pyproject.toml says of it, and, where a C compiler is there, the
shared library, so that nothing else has to be installed. Without one the module takes what the system has."""
import base64
import hashlib
import os
import re
import subprocess
import zipfile

HERE = os.path.dirname(os.path.abspath(__file__))
ROOT = os.path.dirname(os.path.dirname(HERE))


def _read(path):
    with open(path, "rb") as file:
        return file.read()


def _library():
    """The shared library's bytes, or None: outside a checkout, on another machine, without a compiler."""
    if not os.path.exists(os.path.join(ROOT, "install", "symbols.awk")) or os.uname().machine != "x86_64":
        return None
    header = _read(os.path.join(ROOT, "include", "tagetessash.h")).decode("utf-8")
    name = "target/install/libtagetessash.so.%s.%s" % tuple(re.search("#define TAGETESSASH_%s (\\d+)" % word, header)[1] for word in ("VERSION", "MINOR"))
    try:
        subprocess.run(["make", "-s", name], cwd=ROOT, check=True, stdout=subprocess.DEVNULL)
    except (OSError, subprocess.CalledProcessError):
        return None
    return _read(os.path.join(ROOT, name))


def build_wheel(wheel_directory, config_settings=None, metadata_directory=None):
    """The wheel's name."""
    files = {}
    for name in sorted(os.listdir(os.path.join(HERE, "tagetessash"))):
        if name.endswith((".py", ".typed")):
            files["tagetessash/" + name] = _read(os.path.join(HERE, "tagetessash", name))
    library = _library()
    if library:
        files["tagetessash/libtagetessash.so.3"] = library
    version = re.search(r'^__version__ = "(.*)"$', files["tagetessash/__init__.py"].decode("utf-8"), re.M)[1]
    said = _read(os.path.join(HERE, "pyproject.toml")).decode("utf-8")
    summary, python, licence = (re.search('^%s = "(.*)"$' % key, said, re.M)[1] for key in ("description", "requires-python", "license"))
    info = "tagetessash-%s.dist-info/" % version
    tag = "py3-none-linux_x86_64" if library else "py3-none-any"
    metadata = "Metadata-Version: 2.1\nName: tagetessash\nVersion: %s\nSummary: %s\nLicense: %s\nRequires-Python: %s\n" % (version, summary, licence, python)
    files[info + "METADATA"] = metadata.encode("utf-8")
    pure = "false" if library else "true"
    files[info + "WHEEL"] = ("Wheel-Version: 1.0\nGenerator: wheel_of_module\nRoot-Is-Purelib: %s\nTag: %s\n" % (pure, tag)).encode("utf-8")
    for name in ("LICENSE-MIT", "LICENSE-APACHE"):
        if os.path.exists(os.path.join(ROOT, name)):
            files[info + name] = _read(os.path.join(ROOT, name))
    record = ""
    for name, data in files.items():
        total = base64.urlsafe_b64encode(hashlib.sha256(data).digest()).rstrip(b"=").decode("ascii")
        record += "%s,sha256=%s,%d\n" % (name, total, len(data))
    files[info + "RECORD"] = (record + info + "RECORD,,\n").encode("utf-8")
    wheel = "tagetessash-%s-%s.whl" % (version, tag)
    with zipfile.ZipFile(os.path.join(wheel_directory, wheel), "w", zipfile.ZIP_DEFLATED) as out:
        for name, data in files.items():
            # the same bytes each time
            out.writestr(zipfile.ZipInfo(name, (1980, 1, 1, 0, 0, 0)), data)
    return wheel


def build_sdist(sdist_directory, config_settings=None):
    """None is made: the checkout is the source."""
    raise NotImplementedError("the source is the checkout")
