"""LibreOffice, which opens what the package writes, and makes what it reads. A plugin of pytest."""
import pathlib
import subprocess
from collections.abc import Callable

import pytest
from support.needs import tool

Office = Callable[[pathlib.Path, str], pathlib.Path]


@pytest.fixture(scope="session")
def office(tmp_path_factory: pytest.TempPathFactory) -> Office:
    """What opens a file in LibreOffice, and saves it in another format."""
    soffice, home = tool("soffice"), tmp_path_factory.mktemp("office")

    def saved(path: pathlib.Path, ending: str) -> pathlib.Path:
        words = [soffice, f"-env:UserInstallation=file://{home}", "--headless", "--convert-to", ending, "--outdir"]
        subprocess.run([*words, path.parent / "saved", path], check=True, capture_output=True, timeout=120)
        return path.parent / "saved" / f"{path.stem}.{ending}"

    return saved
