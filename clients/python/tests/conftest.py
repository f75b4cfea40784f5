import os
import pathlib
from typing import Iterator

import pytest

import tiswenor


def pytest_report_header() -> str:
    return f"server: {os.environ.get('TISWENOR_SERVER', 'lsm_server of PATH')}"


@pytest.fixture
def folder(tmp_path: pathlib.Path) -> pathlib.Path:
    return tmp_path / "db"


@pytest.fixture
def db(folder: pathlib.Path) -> Iterator[tiswenor.DB]:
    with tiswenor.DB(folder, create_if_missing=True) as opened:
        yield opened
