"""Packs the package and the built library into a wheel, for pip install hosts/python (the hooks are those of PEP 517).

It needs Python's own modules alone, so that pip has nothing to fetch.
"""

import base64
import hashlib
import sys
import tomllib
import zipfile
from pathlib import Path
from typing import Any

HERE = Path(__file__).resolve().parent
LIBRARY = HERE.parents[1] / "target" / "hosts" / "libdesk.so"

# The library is for x86-64 Linux, and the package is for every Python 3 there.
TAG = "py3-none-linux_x86_64"


def _project() -> dict[str, Any]:
    with open(HERE / "pyproject.toml", "rb") as file:
        project: dict[str, Any] = tomllib.load(file)["project"]
    return project


def _stem() -> str:
    return f"{_project()['name']}-{_project()['version']}"


def _package() -> dict[str, bytes]:
    """What is installed, by its name in the wheel."""
    if not LIBRARY.is_file():
        sys.exit(f"thondrimai: there is no desk library {LIBRARY}; run hosts/build first, which makes it, and then pip again")
    sources = sorted(path for path in (HERE / "thondrimai").iterdir() if path.suffix == ".py" or path.name == "py.typed")
    if len(sources) < 2:
        sys.exit(f"thondrimai: there is no package in {HERE}")
    return {f"thondrimai/{path.name}": path.read_bytes() for path in (*sources, LIBRARY)}


def _metadata() -> dict[str, bytes]:
    project = _project()
    metadata = {
        "Metadata-Version": "2.1",
        "Name": project["name"],
        "Version": project["version"],
        "Summary": project["description"],
        "Requires-Python": project["requires-python"],
    }
    wheel = {"Wheel-Version": "1.0", "Generator": "wheel_backend", "Root-Is-Purelib": "false", "Tag": TAG}
    texts = {"METADATA": metadata, "WHEEL": wheel}
    lines = {name: "".join(f"{key}: {value}\n" for key, value in fields.items()) for name, fields in texts.items()}
    return {f"{_stem()}.dist-info/{name}": text.encode() for name, text in lines.items()}


def _record(files: dict[str, bytes]) -> bytes:
    """A line for each file of the wheel: its name, a digest and its size."""
    lines = []
    for name, data in files.items():
        digest = base64.urlsafe_b64encode(hashlib.sha256(data).digest()).decode().rstrip("=")
        lines.append(f"{name},sha256={digest},{len(data)}\n")
    return "".join([*lines, f"{_stem()}.dist-info/RECORD,,\n"]).encode()


def build_wheel(wheel_directory: str, config_settings: object = None, metadata_directory: object = None) -> str:
    """Writes the wheel into the folder, and gives its name."""
    files = {**_package(), **_metadata()}
    files[f"{_stem()}.dist-info/RECORD"] = _record(files)
    name = f"{_stem()}-{TAG}.whl"
    with zipfile.ZipFile(Path(wheel_directory) / name, "w", zipfile.ZIP_DEFLATED) as wheel:
        for path, data in files.items():
            # A fixed date: equal sources give an equal wheel.
            entry = zipfile.ZipInfo(path, (1980, 1, 1, 0, 0, 0))
            entry.external_attr = 0o644 << 16
            entry.compress_type = zipfile.ZIP_DEFLATED
            wheel.writestr(entry, data)
    return name


def build_sdist(sdist_directory: str, config_settings: object = None) -> str:
    """The sources alone make no package: the library is built from the whole repository."""
    sys.exit("thondrimai: there is no source distribution; the library is built from the whole repository, by hosts/build")
