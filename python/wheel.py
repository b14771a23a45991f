"""Makes the wheel that `pip install .` installs, with nothing but Python: the package, the shared library, and the licences. The same bytes for the
same files."""

import base64
import hashlib
import os
import pathlib
import zipfile

HERE = pathlib.Path(__file__).resolve().parent
TOP = HERE.parent
TAG = "py3-none-manylinux_2_17_x86_64"
METADATA = """\
Metadata-Version: 2.1
Name: bgview
Version: {version}
Summary: A formally verified Borowsky-Gafni simulation: verdicts on histories, schedules step by step, all outcomes of a protocol
License: MIT OR Apache-2.0
Requires-Python: >=3.8
"""
WHEEL = f"Wheel-Version: 1.0\nGenerator: bgview\nRoot-Is-Purelib: false\nTag: {TAG}\n"


def library():
    """The shared library that the environment names, or the released one."""
    return pathlib.Path(os.environ.get("BGVIEW_LIBRARY") or TOP / "dist" / "libbgview.so")


def files(info, version):
    """What is in the wheel, by its path there."""
    yield from ((f"bgview/{file.name}", file.read_bytes()) for file in sorted((HERE / "bgview").iterdir()) if file.suffix in (".py", ".typed"))
    yield "bgview/libbgview.so", library().read_bytes()
    yield f"{info}/METADATA", METADATA.format(version=version).encode()
    yield f"{info}/WHEEL", WHEEL.encode()
    for licence in (TOP / "LICENSE-APACHE", TOP / "LICENSE-MIT", next(file for file in (TOP / "dist/LICENSES", TOP / "LICENSES") if file.exists())):
        yield f"{info}/licenses/{licence.name}", licence.read_bytes()


def record_of(path, data):
    """The line of a file in the wheel's list of files."""
    digest = base64.urlsafe_b64encode(hashlib.sha256(data).digest()).rstrip(b"=").decode()
    return f"{path},sha256={digest},{len(data)}\n"


def build_wheel(wheel_directory, config_settings=None, metadata_directory=None):
    """The call that pip makes (PEP 517)."""
    version = (TOP / "VERSION").read_text().strip()
    info = f"bgview-{version}.dist-info"
    name = f"bgview-{version}-{TAG}.whl"
    record = f"{info}/RECORD"
    packed = dict(files(info, version))
    packed[record] = ("".join(record_of(path, data) for path, data in packed.items()) + f"{record},,\n").encode()
    with zipfile.ZipFile(pathlib.Path(wheel_directory) / name, "w", zipfile.ZIP_DEFLATED) as wheel:
        for path, data in packed.items():
            entry = zipfile.ZipInfo(path)  # with a fixed date
            entry.external_attr = 0o644 << 16
            entry.compress_type = zipfile.ZIP_DEFLATED
            wheel.writestr(entry, data)
    return name
