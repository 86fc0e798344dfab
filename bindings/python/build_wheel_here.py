"""Builds the wheel, with the standard library alone, so that `pip wheel` needs no network.

The shared object comes from the folder that the environment names as GRAPHQL_VALIDATION_FOLDER, or from out/library of
the checkout. scripts/build-library makes it.
"""

import base64
import hashlib
import os
import sysconfig
import tomllib
import zipfile
from pathlib import Path

HERE = Path(__file__).resolve().parent
SHARED = "libgraphql_validation.so.2"
PROJECT = tomllib.loads((HERE / "pyproject.toml").read_text())["project"]
NAME, VERSION = PROJECT["name"].replace("-", "_"), PROJECT["version"]
TAG = "py3-none-" + sysconfig.get_platform().replace("-", "_").replace(".", "_")
INFO = f"{NAME}-{VERSION}.dist-info"


def _shared() -> Path:
    folder = os.environ.get("GRAPHQL_VALIDATION_FOLDER", HERE / "../../out/library")
    found = Path(folder) / SHARED
    if not found.is_file():
        raise FileNotFoundError(f"{found}: make it by scripts/build-library")
    return found


def _files() -> dict[str, bytes]:
    files = {f"{NAME}/{it.name}": it.read_bytes() for it in sorted((HERE / NAME).iterdir()) if it.is_file()}
    files[f"{NAME}/{SHARED}"] = _shared().read_bytes()
    readme = (HERE / "README.md").read_text()
    head = f"Metadata-Version: 2.1\nName: {PROJECT['name']}\nVersion: {VERSION}\nSummary: {PROJECT['description']}\n"
    head += f"License: {PROJECT['license']['text']}\nRequires-Python: {PROJECT['requires-python']}\n"
    head += "Description-Content-Type: text/markdown\n"
    files[f"{INFO}/METADATA"] = f"{head}\n{readme}".encode()
    files[f"{INFO}/WHEEL"] = f"Wheel-Version: 1.0\nGenerator: {NAME}\nRoot-Is-Purelib: false\nTag: {TAG}\n".encode()
    return files


def _record(files: dict[str, bytes]) -> bytes:
    lines = []
    for name, content in files.items():
        digest = base64.urlsafe_b64encode(hashlib.sha256(content).digest()).rstrip(b"=").decode()
        lines.append(f"{name},sha256={digest},{len(content)}\n")
    return "".join([*lines, f"{INFO}/RECORD,,\n"]).encode()


def build_wheel(wheel_directory, config_settings=None, metadata_directory=None):
    files = _files()
    files[f"{INFO}/RECORD"] = _record(files)
    name = f"{NAME}-{VERSION}-{TAG}.whl"
    with zipfile.ZipFile(Path(wheel_directory) / name, "w", zipfile.ZIP_DEFLATED) as wheel:
        for path, content in files.items():
            wheel.writestr(path, content)
    return name
