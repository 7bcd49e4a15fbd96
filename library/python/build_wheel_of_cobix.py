"""Makes the wheel of cobix, with the shared library inside: what pip calls (PEP 517). It needs nothing but Python."""
import base64
import hashlib
import os
import re
import sysconfig
import zipfile

HERE = os.path.dirname(os.path.abspath(__file__))
LIBRARY = os.environ.get("COBIX_LIBRARY") or os.path.join(HERE, "..", "out", "libcobix.so.0")
NAME = "cobix"
with open(os.path.join(HERE, "cobix", "__init__.py"), encoding="utf-8") as _text:
    VERSION = re.search(r'^__version__ = "(.*)"$', _text.read(), re.M)[1]
INFO = f"{NAME}-{VERSION}.dist-info"
TAG = "py3-none-" + sysconfig.get_platform().replace("-", "_").replace(".", "_")


def _files():
    if not os.path.exists(LIBRARY):
        raise SystemExit(f"there is no {LIBRARY}: `make library` at the top of the repository builds it")
    for name, path in {"__init__.py": os.path.join(HERE, "cobix", "__init__.py"), "libcobix.so.0": LIBRARY}.items():
        with open(path, "rb") as it:
            yield f"{NAME}/{name}", it.read()
    about = f"Metadata-Version: 2.1\nName: {NAME}\nVersion: {VERSION}\nRequires-Python: >=3.9\n"
    yield f"{INFO}/METADATA", about.encode()
    yield f"{INFO}/WHEEL", f"Wheel-Version: 1.0\nGenerator: {NAME}\nRoot-Is-Purelib: false\nTag: {TAG}\n".encode()


def build_wheel(wheel_directory, config_settings=None, metadata_directory=None):
    wheel, record = f"{NAME}-{VERSION}-{TAG}.whl", ""
    with zipfile.ZipFile(os.path.join(wheel_directory, wheel), "w", zipfile.ZIP_DEFLATED) as it:
        for name, content in _files():
            it.writestr(name, content)
            digest = base64.urlsafe_b64encode(hashlib.sha256(content).digest()).rstrip(b"=").decode()
            record += f"{name},sha256={digest},{len(content)}\n"
        it.writestr(f"{INFO}/RECORD", record + f"{INFO}/RECORD,,\n")
    return wheel
