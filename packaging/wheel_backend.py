"""Builds the wheel of the module for Python, with the library for C inside.

    python3 packaging/wheel_backend.py

writes it to build/, as `make wheel` does. It is also the build backend that pyproject.toml names, so that `pip install .` and
`pip wheel .` work after `make lib`. It needs the standard library alone: a backend of another project would have to be
downloaded. There is no archive of sources (build_sdist), since only the kit builds the library from them."""
import base64
import hashlib
import re
import sys
import sysconfig
import tomllib
import zipfile
from pathlib import Path
from typing import Any, Optional

TOP = Path(__file__).resolve().parent.parent
LIBRARY = TOP / 'build' / 'libsoxchain.so'
# Every file has the earliest date of a zip file, so the same library gives the same wheel.
DATE = (1980, 1, 1, 0, 0, 0)
# Installers know no older manylinux tag for all processors (PEP 600).
OLDEST_GLIBC = 17


def version() -> str:
    """The version, from its one place."""
    text = (TOP / 'crates' / 'soxchain_common' / 'src' / 'about.rt').read_text()
    found = re.search(r'^pub const VERSION.*"soxchain ([0-9.]*)\\n', text, re.MULTILINE)
    if found is None:
        raise ValueError('about.rt has no version')
    return found[1]


def tag(library: bytes) -> str:
    """Python 3, no interface of CPython, and the platform with the version of the C library that this library asks for."""
    platform = re.sub(r'\W', '_', sysconfig.get_platform())
    versions = [int(number) for number in re.findall(rb'GLIBC_2\.(\d+)', library)]
    if versions:
        platform = platform.replace('linux_', f'manylinux_2_{max(OLDEST_GLIBC, *versions)}_')
    return f'py3-none-{platform}'


def metadata(project: dict[str, Any]) -> bytes:
    """The file METADATA, from the table [project] of pyproject.toml."""
    fields = [('Metadata-Version', '2.4'), ('Name', project['name']), ('Version', version()), ('Summary', project['description']),
              ('License-Expression', project['license']), *(('License-File', name) for name in project['license-files']),
              ('Requires-Python', project['requires-python']), ('Description-Content-Type', 'text/markdown')]
    head = ''.join(f'{name}: {value}\n' for name, value in fields)
    return f'{head}\n{(TOP / project["readme"]).read_text()}'.encode()


def record(files: dict[str, bytes], name: str) -> bytes:
    """The file RECORD: the hash and the length of each file but itself."""
    rows = []
    for path, data in files.items():
        digest = base64.urlsafe_b64encode(hashlib.sha256(data).digest()).rstrip(b'=').decode()
        rows.append(f'{path},sha256={digest},{len(data)}\n')
    return ''.join([*rows, f'{name},,\n']).encode()


def contents(library: bytes) -> dict[str, bytes]:
    """The files of the wheel by their names."""
    project = tomllib.loads((TOP / 'pyproject.toml').read_text())['project']
    info = f'{project["name"]}-{version()}.dist-info'
    wheel = f'Wheel-Version: 1.0\nGenerator: soxchain\nRoot-Is-Purelib: false\nTag: {tag(library)}\n'
    files = {
        'soxchain/__init__.py': (TOP / 'examples' / 'python' / 'soxchain.py').read_bytes(),
        'soxchain/py.typed': b'',
        f'soxchain/libsoxchain.so.{version().split(".")[0]}': library,
        f'{info}/METADATA': metadata(project),
        f'{info}/WHEEL': wheel.encode(),
    }
    files.update({f'{info}/licenses/{name}': (TOP / name).read_bytes() for name in project['license-files']})
    files[f'{info}/RECORD'] = record(files, f'{info}/RECORD')
    return files


def build_wheel(wheel_directory: str, config_settings: Optional[dict[str, Any]] = None, metadata_directory: Optional[str] = None) -> str:
    """Writes the wheel into a folder, and returns its name (PEP 517)."""
    if not LIBRARY.exists():
        raise FileNotFoundError(f'{LIBRARY} is wanted: make lib builds it')
    library = LIBRARY.read_bytes()
    name = f'soxchain-{version()}-{tag(library)}.whl'
    with zipfile.ZipFile(Path(wheel_directory, name), 'w', zipfile.ZIP_DEFLATED) as wheel:
        for path, data in contents(library).items():
            entry = zipfile.ZipInfo(path, DATE)
            entry.compress_type = zipfile.ZIP_DEFLATED
            entry.external_attr = 0o100644 << 16
            wheel.writestr(entry, data)
    return name


def main() -> int:
    folder = TOP / 'build'
    for older in folder.glob('soxchain-*.whl'):
        older.unlink()
    try:
        print(f'made build/{build_wheel(str(folder))}')
    except FileNotFoundError as error:
        print(f'wheel: {error}')
        return 2
    return 0


if __name__ == '__main__':
    sys.exit(main())
