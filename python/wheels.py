"""Builds the package for pip: wheels, those that stand where the sources do (`pip install -e`), and the sources.

It needs nothing but the standard library, so that `pip install ./python` takes no network. What is said of the package
stands in pyproject.toml, of which this reads strings and lists, and its version in revc/__init__.py.
"""
import ast
import base64
import hashlib
import re
import tarfile
import zipfile
from pathlib import Path
from typing import Dict, List, Optional, Union

HERE = Path(__file__).resolve().parent
Value = Union[str, List[str]]


def project() -> Dict[str, Dict[str, Value]]:
    """The sections of pyproject.toml."""
    sections: Dict[str, Dict[str, Value]] = {}
    text = (HERE / "pyproject.toml").read_text()
    for name, body in re.findall(r"^\[([\w.-]+)\]\n(.*?)(?=^\[\w|\Z)", text, re.MULTILINE | re.DOTALL):
        pairs = re.findall(r'^([\w-]+|"[^"]*") = (.*?)(?=^[\w"]|\Z)', body, re.MULTILINE | re.DOTALL)
        sections[name] = {key.strip('"'): ast.literal_eval(value.strip()) for key, value in pairs}
    return sections


def version() -> str:
    found = re.search(r'^__version__ = "([^"]+)"$', (HERE / "revc" / "__init__.py").read_text(), re.MULTILINE)
    assert found, "revc/__init__.py says no version"
    return found[1]


def metadata() -> str:
    about, links = project()["project"], project()["project.urls"]
    lines = ["Metadata-Version: 2.1", f"Name: {about['name']}", f"Version: {version()}", f"Summary: {about['description']}",
             f"Requires-Python: {about['requires-python']}", "Keywords: " + ",".join(about["keywords"])]
    lines += [f"Classifier: {each}" for each in about["classifiers"]]
    lines += [f"Project-URL: {re.sub(',', ';', name)}, {link}" for name, link in links.items()]
    readme = (HERE / str(about["readme"])).read_text()
    return "\n".join(lines + ["Description-Content-Type: text/markdown", "", readme])


def wheel(folder: str, files: Dict[str, str]) -> str:
    """Writes a wheel of these files, by their names in it; the answer is its own name."""
    name = f"revc-{version()}"
    scripts = "".join(f"{script} = {place}\n" for script, place in project()["project.scripts"].items())
    files = {**files, f"{name}.dist-info/METADATA": metadata(),
             f"{name}.dist-info/WHEEL": "Wheel-Version: 1.0\nGenerator: revc\nRoot-Is-Purelib: true\nTag: py3-none-any\n",
             f"{name}.dist-info/entry_points.txt": f"[console_scripts]\n{scripts}"}
    record = f"{name}.dist-info/RECORD"
    rows = []
    for path, text in files.items():
        digest = base64.urlsafe_b64encode(hashlib.sha256(text.encode()).digest()).decode().rstrip("=")
        rows.append(f"{path},sha256={digest},{len(text.encode())}\n")
    with zipfile.ZipFile(Path(folder) / f"{name}-py3-none-any.whl", "w", zipfile.ZIP_DEFLATED) as archive:
        for path, text in {**files, record: "".join(rows) + f"{record},,\n"}.items():
            archive.writestr(path, text)
    return f"{name}-py3-none-any.whl"


# ---- What pip calls


def build_wheel(wheel_directory: str, config_settings: Optional[object] = None,
                metadata_directory: Optional[str] = None) -> str:
    sources = sorted([*(HERE / "revc").rglob("*.py"), HERE / "revc" / "py.typed"])
    return wheel(wheel_directory, {str(path.relative_to(HERE)): path.read_text() for path in sources})


def build_editable(wheel_directory: str, config_settings: Optional[object] = None,
                   metadata_directory: Optional[str] = None) -> str:
    return wheel(wheel_directory, {"revc.pth": f"{HERE}\n"})


def build_sdist(sdist_directory: str, config_settings: Optional[object] = None) -> str:
    name = f"revc-{version()}"
    with tarfile.open(Path(sdist_directory) / f"{name}.tar.gz", "w:gz") as archive:
        for path in [HERE / "pyproject.toml", HERE / "README.md", HERE / "wheels.py", *sorted((HERE / "revc").rglob("*.py")),
                     HERE / "revc" / "py.typed"]:
            archive.add(path, f"{name}/{path.relative_to(HERE)}")
    return f"{name}.tar.gz"
