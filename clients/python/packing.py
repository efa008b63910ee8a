"""Packs the package tcrx for pip. This is a build backend (PEP 517) that needs only the standard library of Python.

If the shared library is next to the package, as in an installation or an unpacked archive, it is packed with the package. Otherwise a C
compiler and `make` build it from the folder `dist` of the repository. If one of these is missing, the package is packed without the
library, and a message on standard error says so.
"""
from __future__ import annotations

import base64
import hashlib
import io
import os
import re
import shlex
import shutil
import subprocess
import sys
import sysconfig
import tarfile
import tempfile
import zipfile
from pathlib import Path
from typing import Dict, List, Mapping, Optional

HERE = Path(__file__).resolve().parent
NAME = "dekorihe"
LIBRARY = "libtcrx.so.0"
DIST = HERE.parent.parent / "dist"
OWN_FILES = ("pyproject.toml", "packing.py", "tcrx_bench.py")
SCRIPTS = "[console_scripts]\ntcrx-bench = tcrx.bench.main:main\n"


def version() -> str:
    """Returns the version of the client."""
    found = re.search(r'^__version__ = "(.*)"$', (HERE / "tcrx/__init__.py").read_text(encoding="utf-8"), re.M)
    if found is None:
        raise ValueError("tcrx has no version")
    return found[1]


def metadata() -> str:
    """Returns the metadata of the package."""
    return (f"Metadata-Version: 2.1\nName: {NAME}\nVersion: {version()}\n"
            "Summary: A CCSDS telecommand receiver: a receiver, channels and frames in the process, and a test bench\n"
            "License: Apache-2.0\nRequires-Python: >=3.9\nClassifier: Typing :: Typed\n")


def library() -> Optional[bytes]:
    """Returns the shared library that is next to the package, or builds it. Returns `None` if something is missing for the build.

    Raises `CalledProcessError` if the build fails."""
    if (HERE / "tcrx" / LIBRARY).is_file():
        return (HERE / "tcrx" / LIBRARY).read_bytes()
    compiler = shlex.split(os.environ.get("CC", "cc"))[0]
    missing = [command for command in (compiler, "make") if not shutil.which(command)] + [DIST / "portable"] * (not (DIST / "portable").is_dir())
    if missing:
        print(f"packing: there is no {missing[0]}, so the package is packed without {LIBRARY}, and will look for it elsewhere", file=sys.stderr)
        return None
    with tempfile.TemporaryDirectory() as folder:
        subprocess.run(["make", "-s", "-C", DIST, f"OUT={folder}", f"{folder}/libtcrx.so"], check=True, stdout=sys.stderr)
        return (Path(folder) / LIBRARY).read_bytes()


def sources() -> Dict[str, bytes]:
    """Returns the contents of the files of the package by their paths, without the shared library."""
    paths = sorted(path for path in (HERE / "tcrx").glob("**/*") if path.is_file() and path.name != LIBRARY and "__pycache__" not in path.parts)
    return {path.relative_to(HERE).as_posix(): path.read_bytes() for path in paths}


def contents(made: Optional[bytes], tag: str) -> Dict[str, bytes]:
    """Returns the contents of the files of the wheel by their paths, without the list of these files. `made` is the shared library."""
    files = sources() if made is None else {f"tcrx/{LIBRARY}": made, **sources()}
    about = f"{NAME}-{version()}.dist-info"
    for name in ("LICENSE", "NOTICE"):
        if (HERE.parent.parent / name).is_file():
            files[f"{about}/{name}"] = (HERE.parent.parent / name).read_bytes()
    files[f"{about}/METADATA"] = metadata().encode()
    files[f"{about}/entry_points.txt"] = SCRIPTS.encode()
    is_pure = str(made is None).lower()
    files[f"{about}/WHEEL"] = f"Wheel-Version: 1.0\nGenerator: packing\nRoot-Is-Purelib: {is_pure}\nTag: {tag}\n".encode()
    return files


def listed(files: Mapping[str, bytes]) -> bytes:
    """Returns the list of the wheel's files with their digests."""
    rows: List[str] = []
    for name, octets in files.items():
        digest = base64.urlsafe_b64encode(hashlib.sha256(octets).digest()).rstrip(b"=").decode()
        rows.append(f"{name},sha256={digest},{len(octets)}")
    rows.append(f"{NAME}-{version()}.dist-info/RECORD,,")
    return ("\n".join(rows) + "\n").encode()


def build_wheel(wheel_directory: str, config_settings: Optional[Mapping[str, object]] = None,
                metadata_directory: Optional[str] = None) -> str:
    """Writes the wheel, and returns its name. All times in it are the same, so that the same files give the same wheel."""
    del config_settings, metadata_directory
    made = library()
    tag = "py3-none-" + ("any" if made is None else re.sub("[-.]", "_", sysconfig.get_platform()))
    name = f"{NAME}-{version()}-{tag}.whl"
    files = contents(made, tag)
    files[f"{NAME}-{version()}.dist-info/RECORD"] = listed(files)
    with zipfile.ZipFile(Path(wheel_directory) / name, "w", zipfile.ZIP_DEFLATED) as wheel:
        for path, octets in files.items():
            entry = zipfile.ZipInfo(path)
            entry.external_attr = (0o755 if path.endswith(LIBRARY) else 0o644) << 16
            wheel.writestr(entry, octets, zipfile.ZIP_DEFLATED)
    return name


def build_sdist(sdist_directory: str, config_settings: Optional[Mapping[str, object]] = None) -> str:
    """Writes the archive of the sources, and returns its name."""
    del config_settings
    folder = f"{NAME}-{version()}"
    files = {**{name: (HERE / name).read_bytes() for name in OWN_FILES}, **sources()}
    files["PKG-INFO"] = metadata().encode()
    with tarfile.open(Path(sdist_directory) / f"{folder}.tar.gz", "w:gz", format=tarfile.PAX_FORMAT) as archive:
        for name, octets in files.items():
            entry = tarfile.TarInfo(f"{folder}/{name}")
            entry.size = len(octets)
            archive.addfile(entry, io.BytesIO(octets))
    return f"{folder}.tar.gz"
