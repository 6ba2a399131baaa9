"""Builds the wheel of the package, with the shared library in it: a build backend (PEP 517) that needs the standard library only.

    pip install bindings/python               or, without pip,    python3 bindings/python/backend.py FOLDER

The library is the one that JDR_LIBRARY names, else target/library/libjdr_c.so, which tools/library makes.
"""

import base64
import hashlib
import os
import re
import sys
import sysconfig
import tarfile
import zipfile
from pathlib import Path

HERE = Path(__file__).resolve().parent
MADE = HERE.parent.parent / "target/library/libjdr_c.so"


def _field(name):
    """A field of pyproject.toml, which says it once."""
    return re.search(rf'^{name} = "(.*)"$', (HERE / "pyproject.toml").read_text(), re.M).group(1)


def _library():
    library = Path(os.environ.get("JDR_LIBRARY") or MADE)
    if not library.exists():
        raise SystemExit(f"{library} is not there: tools/library makes it, or JDR_LIBRARY names another")
    return library


def _files():
    """What the package consists of, by its place in the wheel."""
    files = {f"jdr/{path.name}": path.read_bytes() for path in sorted((HERE / "jdr").iterdir()) if path.suffix in (".py", ".typed")}
    files["jdr/libjdr_c.so"] = _library().read_bytes()
    return files


def _metadata():
    lines = ["Metadata-Version: 2.1", f"Name: {_field('name')}", f"Version: {_field('version')}", f"Summary: {_field('description')}"]
    lines += [f"Requires-Python: {_field('requires-python')}", "Description-Content-Type: text/markdown", "", (HERE / "README.md").read_text()]
    return "\n".join(lines).encode()


def _recorded(name, content):
    digest = base64.urlsafe_b64encode(hashlib.sha256(content).digest()).rstrip(b"=").decode()
    return f"{name},sha256={digest},{len(content)}"


def build_wheel(wheel_directory, config_settings=None, metadata_directory=None):
    """Writes the wheel into a folder and gives its name."""
    tag = "py3-none-" + re.sub(r"[-.]", "_", sysconfig.get_platform())
    stem = f"{_field('name')}-{_field('version')}"
    info = f"{stem}.dist-info"
    files = _files()
    files[f"{info}/METADATA"] = _metadata()
    files[f"{info}/WHEEL"] = f"Wheel-Version: 1.0\nGenerator: jdr\nRoot-Is-Purelib: false\nTag: {tag}\n".encode()
    record = [_recorded(name, content) for name, content in files.items()] + [f"{info}/RECORD,,", ""]
    files[f"{info}/RECORD"] = "\n".join(record).encode()
    name = f"{stem}-{tag}.whl"
    with zipfile.ZipFile(Path(wheel_directory) / name, "w", zipfile.ZIP_DEFLATED) as wheel:
        for place, content in files.items():
            # a fixed date: the same files give the same wheel
            wheel.writestr(zipfile.ZipInfo(place, (1980, 1, 1, 0, 0, 0)), content, zipfile.ZIP_DEFLATED)
    return name


def build_sdist(sdist_directory, config_settings=None):
    """Writes the sources into a folder and gives the archive's name."""
    stem = f"{_field('name')}-{_field('version')}"
    with tarfile.open(Path(sdist_directory) / f"{stem}.tar.gz", "w:gz") as archive:
        for name in ("pyproject.toml", "README.md", "backend.py", "jdr"):
            archive.add(HERE / name, f"{stem}/{name}", filter=lambda entry: None if "__pycache__" in entry.name else entry)
    return f"{stem}.tar.gz"


if __name__ == "__main__":
    print(build_wheel(sys.argv[1]))
