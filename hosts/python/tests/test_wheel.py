"""The wheel that pip is given."""

import base64
import hashlib
import tempfile
import unittest
import zipfile
from pathlib import Path

import wheel_backend
from thondrimai.constants import VERSION

PACKAGE = Path(wheel_backend.__file__).resolve().parent / "thondrimai"


class Wheel(unittest.TestCase):
    def setUp(self) -> None:
        folder = tempfile.TemporaryDirectory(dir=wheel_backend.LIBRARY.parent)
        self.addCleanup(folder.cleanup)
        self.folder = folder.name

    def built(self) -> Path:
        return Path(self.folder) / wheel_backend.build_wheel(self.folder)

    def test_package_and_library_are_in_it(self) -> None:
        with zipfile.ZipFile(self.built()) as wheel:
            found = {name: wheel.read(name) for name in wheel.namelist()}
        sources = [*PACKAGE.glob("*.py"), PACKAGE / "py.typed", wheel_backend.LIBRARY]
        self.assertGreater(len(sources), 5)
        for path in sources:
            self.assertEqual(found.pop(f"thondrimai/{path.name}"), path.read_bytes())
        self.assertEqual(sorted(found), [f"{wheel_backend._stem()}.dist-info/{name}" for name in ("METADATA", "RECORD", "WHEEL")])

    def test_its_record_is_right(self) -> None:
        with zipfile.ZipFile(self.built()) as wheel:
            lines = wheel.read(f"{wheel_backend._stem()}.dist-info/RECORD").decode().splitlines()
            self.assertEqual(sorted(line.split(",")[0] for line in lines), sorted(wheel.namelist()))
            for name, digest, size in (line.split(",") for line in lines if not line.endswith(",,")):
                data = wheel.read(name)
                told = base64.urlsafe_b64encode(hashlib.sha256(data).digest()).decode().rstrip("=")
                self.assertEqual((digest, size), (f"sha256={told}", str(len(data))))

    def test_equal_sources_give_an_equal_wheel(self) -> None:
        self.assertEqual(self.built().read_bytes(), self.built().read_bytes())
        with zipfile.ZipFile(self.built()) as wheel:
            self.assertEqual({entry.date_time for entry in wheel.infolist()}, {(1980, 1, 1, 0, 0, 0)})

    def test_its_version_is_that_of_the_library(self) -> None:
        version = (PACKAGE.parents[1] / "version").read_text().strip()
        self.assertEqual(wheel_backend._project()["version"], version)
        self.assertEqual(VERSION, version)
        self.assertEqual(self.built().name, f"thondrimai-{version}-py3-none-linux_x86_64.whl")

    def test_no_sources_alone(self) -> None:
        with self.assertRaisesRegex(SystemExit, "built from the whole repository"):
            wheel_backend.build_sdist(self.folder)
