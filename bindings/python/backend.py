"""Builds the package for pip without setuptools: `pip install bindings/python` needs no other package (PEP 517)."""
import base64
import glob
import hashlib
import io
import os
import tarfile
import zipfile

NAME, VERSION = "otel_c", "0.1.0"
FULL = f"{NAME}-{VERSION}"
METADATA = f"Metadata-Version: 2.1\nName: {NAME}\nVersion: {VERSION}\nRequires-Python: >=3.7\n"
WHEEL = "Wheel-Version: 1.0\nGenerator: backend.py\nRoot-Is-Purelib: true\nTag: py3-none-any\n"
HERE = os.path.dirname(os.path.abspath(__file__))


def files():
    """The files of a wheel, with their bytes."""
    for path in sorted(glob.glob(f"{HERE}/{NAME}/*.py")):
        with open(path, "rb") as file:
            yield os.path.relpath(path, HERE), file.read()
    yield f"{FULL}.dist-info/METADATA", METADATA.encode()
    yield f"{FULL}.dist-info/WHEEL", WHEEL.encode()


def build_wheel(wheel_directory, config_settings=None, metadata_directory=None):
    made, record = f"{FULL}-py3-none-any.whl", ""
    with zipfile.ZipFile(f"{wheel_directory}/{made}", "w", zipfile.ZIP_DEFLATED) as wheel:
        for name, data in files():
            digest = base64.urlsafe_b64encode(hashlib.sha256(data).digest()).rstrip(b"=").decode()
            record += f"{name},sha256={digest},{len(data)}\n"
            wheel.writestr(name, data)
        wheel.writestr(f"{FULL}.dist-info/RECORD", f"{record}{FULL}.dist-info/RECORD,,\n")
    return made


def build_sdist(sdist_directory, config_settings=None):
    made = f"{FULL}.tar.gz"
    with tarfile.open(f"{sdist_directory}/{made}", "w:gz") as archive:
        for name in ("pyproject.toml", "backend.py", NAME):
            archive.add(f"{HERE}/{name}", f"{FULL}/{name}", filter=lambda it: None if "__pycache__" in it.name else it)
        info = tarfile.TarInfo(f"{FULL}/PKG-INFO")
        info.size = len(METADATA.encode())
        archive.addfile(info, io.BytesIO(METADATA.encode()))
    return made
