"""Makes the wheel for `pip install .` (PEP 517, PEP 660) of what `make install-tools` installs: the package cmsproof over the library for
C, the library, which is built of dist/, and the tools in Python. It needs no library of Python; make, a C compiler and binutils build the
library. The program is built by `make`.

The commands are no entry points: what these files do where the modules are missing must end with status 4, since 1 says that a file is
refused.
"""
from __future__ import annotations

import base64
import gzip
import hashlib
import io
import os
import re
import subprocess
import sysconfig
import tarfile
import tempfile
import zipfile
from pathlib import Path
from typing import Any, Union

TOP = Path(__file__).resolve().parent.parent
VERSIONED = TOP / "tools" / "installed" / "cmsproof_tools" / "__init__.py"
# what a source distribution has: what the wheel is made of
SOURCES = "CHANGELOG.md LICENSE Makefile NOTICE README.md pyproject.toml dist docs/REFUSALS.md include packaging tools/installed tools/library.sh"
WHEEL = "Wheel-Version: 1.0\nGenerator: cmsproof\nRoot-Is-Purelib: false\nTag: {tag}\n"
METADATA = """Metadata-Version: 2.1
Name: cmsproof-tools
Version: {version}
Summary: The tools of cmsproof: trust lists, a verifier of signatures, and the check of many files
License: MIT
License-File: LICENSE
License-File: NOTICE
Requires-Python: >=3.9
Requires-Dist: cryptography (>=38)
"""
# the first moment that a zip file can have, in all of them
MOMENT = (1980, 1, 1, 0, 0, 0)
Settings = Union[dict[str, Any], None]


def version() -> str:
    """The version of the tools."""
    (found,) = re.findall(r'^VERSION = "([0-9.]+)"$', VERSIONED.read_text(encoding="utf-8"), re.M)
    return str(found)


def make(*words: str) -> None:
    """Runs make, with nothing of one that runs this."""
    environment = {name: value for name, value in os.environ.items() if not name.startswith(("MAKE", "MFLAGS", "GNUMAKEFLAGS"))}
    done = subprocess.run(["make", "-s", "-C", str(TOP), *words], env=environment, check=False)
    if done.returncode:
        raise SystemExit("cmsproof: the library was not built: apt install build-essential")


def named() -> str:
    """The beginning of the names in a wheel and of its own."""
    return f"cmsproof_tools-{version()}"


def tag() -> str:
    """For which Python and machine the wheel is: for each Python 3, and for one kind of machine."""
    return "py3-none-" + re.sub(r"\W", "_", sysconfig.get_platform())


def described() -> dict[str, bytes]:
    """The files that describe a wheel, but for the list of all."""
    folder = f"{named()}.dist-info"
    texts = {"METADATA": METADATA.format(version=version()), "WHEEL": WHEEL.format(tag=tag())}
    texts.update({name: (TOP / name).read_text(encoding="utf-8") for name in ("LICENSE", "NOTICE")})
    return {f"{folder}/{name}": text.encode() for name, text in texts.items()}


def scripts(folder: Path) -> dict[str, bytes]:
    """The commands in a folder, for whichever Python they are installed for."""
    found = {}
    for path in sorted(folder.glob("cmsproof-*")):
        first, rest = path.read_bytes().split(b"\n", 1)
        if not first.startswith(b"#!"):
            raise SystemExit(f"cmsproof: {path} is no script")
        found[f"{named()}.data/scripts/{path.name}"] = b"#!python\n" + rest
    return found


def written(folder: str, name: str, octets: bytes) -> str:
    """Writes a file, whole or not at all, and gives its name."""
    beside = Path(folder, f".{name}.new")
    try:
        beside.write_bytes(octets)
        os.replace(beside, Path(folder, name))
    finally:
        beside.unlink(missing_ok=True)
    return name


def put(folder: str, files: dict[str, bytes]) -> str:
    """Writes a wheel of these files, with the list of them, and gives its name."""
    rows, packed = [], io.BytesIO()
    record = f"{named()}.dist-info/RECORD"
    for name, octets in files.items():
        digest = base64.urlsafe_b64encode(hashlib.sha256(octets).digest()).rstrip(b"=").decode()
        rows.append(f"{name},sha256={digest},{len(octets)}\n")
    files = {**files, record: "".join([*rows, f"{record},,\n"]).encode()}
    with zipfile.ZipFile(packed, "w") as wheel:
        for name, octets in files.items():
            member = zipfile.ZipInfo(name, MOMENT)
            member.external_attr = (0o100755 if ".data/scripts/" in name else 0o100644) << 16
            member.compress_type = zipfile.ZIP_DEFLATED
            wheel.writestr(member, octets)
    return written(folder, f"{named()}-{tag()}.whl", packed.getvalue())


def build_wheel(wheel_directory: str, config_settings: Settings = None, metadata_directory: Union[str, None] = None) -> str:
    """A wheel of all that `make install-tools` installs."""
    with tempfile.TemporaryDirectory() as folder:
        # (the library is built anew: one of another machine may lie there)
        make("--always-make", "install-tools", f"DESTDIR={folder}", "PREFIX=/all", f"BUILT={folder}/library")
        modules = Path(folder, "all", "lib", "cmsproof")
        # (make and the shell take a $ in a name for a variable)
        if not modules.is_dir():
            raise SystemExit(f"cmsproof: nothing was installed into {folder}: name another folder for temporary files, TMPDIR")
        files = {str(path.relative_to(modules)): path.read_bytes() for path in sorted(modules.rglob("*")) if path.is_file()}
        files.update(scripts(Path(folder, "all", "bin")))
    return put(wheel_directory, {**files, **described()})


def build_editable(wheel_directory: str, config_settings: Settings = None, metadata_directory: Union[str, None] = None) -> str:
    """A wheel that leads to the modules where they are, beside which the library is built."""
    make("--always-make", "tools/installed/cmsproof/libcmsproof.so.1")
    modules = VERSIONED.parent.parent
    files = {"cmsproof_tools.pth": f"{modules}\n".encode(), **scripts(modules)}
    return put(wheel_directory, {**files, **described()})


def of_the_repository(member: tarfile.TarInfo) -> Union[tarfile.TarInfo, None]:
    """A member of a source distribution, unless it is one that was built or that Python compiled."""
    if re.search(r"(^|/)(__pycache__|[^/]*\.(so\.1(\.new)?|pyc|egg-info)|[^/]*~|\.[^/]*)(/|$)", member.name):
        return None
    member.uid = member.gid = member.mtime = 0
    member.uname = member.gname = ""
    member.mode = 0o755 if member.isdir() or member.mode & 0o100 else 0o644
    return member


def build_sdist(sdist_directory: str, config_settings: Settings = None) -> str:
    """A source distribution of what the wheel is made of."""
    octets = io.BytesIO()
    with tarfile.open(fileobj=octets, mode="w", format=tarfile.PAX_FORMAT) as tar:
        about = METADATA.format(version=version()).encode()
        member = tarfile.TarInfo(f"{named()}/PKG-INFO")
        member.size, member.mode = len(about), 0o644
        tar.addfile(member, io.BytesIO(about))
        for name in SOURCES.split():
            tar.add(TOP / name, f"{named()}/{name}", filter=of_the_repository)
    return written(sdist_directory, f"{named()}.tar.gz", gzip.compress(octets.getvalue(), mtime=0))
