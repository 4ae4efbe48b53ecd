"""Builds the package's wheel and source archive by the standard library, as PEP 517 asks it of a backend.

wheel_backend.py FOLDER builds the wheel in that folder."""
import base64
import hashlib
import pathlib
import re
import sys
import tarfile
import zipfile

HERE = pathlib.Path(__file__).resolve().parent
NAME = "cinoweta"
VERSION = re.search(r'^__version__ = "(.*)"$', (HERE / NAME / "__init__.py").read_text(), re.M)[1]
METADATA = f"""Metadata-Version: 2.1
Name: {NAME}
Version: {VERSION}
Summary: A client of Cinoweta, a durable leader election service
Requires-Python: >=3.10
"""
WHEEL = "Wheel-Version: 1.0\nGenerator: wheel_backend\nRoot-Is-Purelib: true\nTag: py3-none-any\n"
SCRIPTS = f"[console_scripts]\n{NAME} = {NAME}.command:main\n"


def record(path: str, content: bytes) -> str:
    """A line of the list of what a wheel holds."""
    digest = base64.urlsafe_b64encode(hashlib.sha256(content).digest()).rstrip(b"=").decode()
    return f"{path},sha256={digest},{len(content)}\n"


def modules() -> list[pathlib.Path]:
    """The files of the package, with the mark that its types are stated."""
    return sorted(path for path in (HERE / NAME).iterdir() if path.is_file())


def build_wheel(wheel_directory: str, config_settings: object = None, metadata_directory: object = None) -> str:
    info = f"{NAME}-{VERSION}.dist-info"
    files = {f"{NAME}/{path.name}": path.read_bytes() for path in modules()}
    files |= {f"{info}/METADATA": METADATA.encode(), f"{info}/WHEEL": WHEEL.encode()}
    files |= {f"{info}/entry_points.txt": SCRIPTS.encode()}
    records = "".join(record(path, content) for path, content in files.items()) + f"{info}/RECORD,,\n"
    wheel = f"{NAME}-{VERSION}-py3-none-any.whl"
    with zipfile.ZipFile(pathlib.Path(wheel_directory) / wheel, "w", zipfile.ZIP_DEFLATED) as archive:
        for path, content in {**files, f"{info}/RECORD": records.encode()}.items():
            archive.writestr(path, content)
    return wheel


def build_sdist(sdist_directory: str, config_settings: object = None) -> str:
    top = f"{NAME}-{VERSION}"
    archive = f"{top}.tar.gz"
    information = pathlib.Path(sdist_directory) / "PKG-INFO"
    information.write_text(METADATA, encoding="utf-8")
    with tarfile.open(pathlib.Path(sdist_directory) / archive, "w:gz") as packed:
        packed.add(information, f"{top}/PKG-INFO")
        for path in [HERE / "pyproject.toml", pathlib.Path(__file__).resolve(), *modules()]:
            packed.add(path, f"{top}/{path.relative_to(HERE)}")
    information.unlink()
    return archive


if __name__ == "__main__":
    build_wheel(sys.argv[1])
