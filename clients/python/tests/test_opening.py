"""Opening: folders that are refused, servers that are not there."""

import os
import pathlib
import shutil
import stat
import subprocess
import sys

import pytest

import tiswenor
from tiswenor.server import find


def refusal(*arguments, **options) -> tiswenor.Error:
    with pytest.raises(tiswenor.Error) as error:
        tiswenor.DB(*arguments, **options)
    return error.value


def test_folder_that_is_not_there(folder):
    assert isinstance(refusal(folder), tiswenor.Refused)
    assert not folder.exists()
    assert isinstance(refusal(folder / "below", create_if_missing=True), tiswenor.Refused)


def test_folder_without_database(folder):
    folder.mkdir()
    error = refusal(folder)
    assert (error.number, error.name) == (202, "NoDatabase")
    assert list(folder.iterdir()) in ([], [folder / "LOCK"])
    tiswenor.DB(folder, create_if_missing=True).close()
    tiswenor.DB(folder).close()


def test_database_that_is_there(folder):
    tiswenor.DB(folder, create_if_missing=True, error_if_exists=True).close()
    error = refusal(folder, create_if_missing=True, error_if_exists=True)
    assert (error.number, error.name) == (203, "IsThere")
    tiswenor.DB(folder).close()


def test_file_in_place_of_a_folder(folder):
    folder.write_bytes(b"no folder")
    assert isinstance(refusal(folder), tiswenor.Refused)
    assert isinstance(refusal(folder, create_if_missing=True), tiswenor.Refused)
    assert folder.read_bytes() == b"no folder"


def test_damaged_database(folder):
    with tiswenor.DB(folder, create_if_missing=True) as db:
        db.put(b"a", b"1")
    (folder / "CURRENT").write_bytes(b"MANIFEST-999999\n")
    assert isinstance(refusal(folder), tiswenor.Refused)


def test_database_that_another_has_open(db, folder):
    error = refusal(folder)
    assert (error.number, error.name) == (52, "Locked")
    db.put(b"a", b"1")
    assert db.get(b"a") == b"1"


def test_paths_of_all_kinds(tmp_path, monkeypatch):
    monkeypatch.chdir(tmp_path)
    for path in ("relative", b"bytes", tmp_path / "\u00e9\u4e2d = folder"):
        with tiswenor.DB(path, create_if_missing=True) as db:
            assert db.name == path
            db.put(b"a", b"1")
        with tiswenor.DB(path) as db:
            assert db.get(b"a") == b"1"
    with pytest.raises(ValueError):
        tiswenor.DB("x" * 5000)


@pytest.mark.parametrize("options", [{"channels": 0}, {"channels": 63}, {"workers": 17}])
def test_numbers_out_of_range(folder, options):
    with pytest.raises(ValueError):
        tiswenor.DB(folder, create_if_missing=True, **options)


@pytest.mark.parametrize("channels", [1, 2, 62])
def test_numbers_of_channels(folder, channels):
    with tiswenor.DB(folder, create_if_missing=True, channels=channels, workers=2) as db:
        db.put(b"a", b"1")
        assert list(zip(db, db.snapshot())) == [((b"a", b"1"), (b"a", b"1"))]


def test_several_databases_at_once(tmp_path):
    opened = [tiswenor.DB(tmp_path / str(n), create_if_missing=True) for n in range(4)]
    for number, db in enumerate(opened):
        db.put(b"key", b"%d" % number)
    for number, db in enumerate(opened):
        assert db.get(b"key") == b"%d" % number
        db.close()


def test_descriptors_are_given_back(folder):
    numbers = lambda: sorted(os.listdir("/proc/self/fd"))
    tiswenor.DB(folder, create_if_missing=True).close()
    before = numbers()
    for _ in range(5):
        tiswenor.DB(folder).close()
        refusal(folder, error_if_exists=True)
        refusal(folder, server="/nowhere/lsm_server")
    assert numbers() == before


def test_database_that_is_forgotten_is_closed(folder):
    db = tiswenor.DB(folder, create_if_missing=True)
    db.put(b"a", b"1")
    del db
    tiswenor.DB(folder).close()


def test_process_that_ends_closes(folder):
    """The server of a process that ended has ended before it: the folder is free at once."""
    text = (
        "import tiswenor, sys\n"
        "db = tiswenor.DB(sys.argv[1], create_if_missing=True)\n"
        "db.put(b'a', b'1')\n"
    )
    subprocess.run([sys.executable, "-c", text, os.fspath(folder)], check=True, env=environment())
    with tiswenor.DB(folder) as db:
        assert db.get(b"a") == b"1"


def test_process_of_few_descriptors(folder):
    """A database with its usual channels, where a process may have 64 descriptors."""
    text = (
        "import resource, sys, tiswenor\n"
        "resource.setrlimit(resource.RLIMIT_NOFILE, (64, 64))\n"
        "for _ in range(2):\n"
        "    with tiswenor.DB(sys.argv[1], create_if_missing=True) as db:\n"
        "        db.put(b'a', b'1')\n"
        "        assert list(db) == [(b'a', b'1')]\n"
    )
    subprocess.run([sys.executable, "-c", text, os.fspath(folder)], check=True, env=environment())


def environment() -> dict:
    source = pathlib.Path(tiswenor.__file__).resolve().parent.parent
    return {**os.environ, "PYTHONPATH": os.fspath(source)}


class TestServer:
    def test_not_there(self, folder):
        error = refusal(folder, create_if_missing=True, server="/nowhere/lsm_server")
        assert (error.number, error.name) == (250, "NoServer")

    def test_no_program(self, folder, tmp_path):
        plain = tmp_path / "plain"
        plain.write_text("text")
        assert refusal(folder, server=plain).number == 250

    def test_ends_at_once(self, folder):
        error = refusal(folder, server=shutil.which("true"))
        assert isinstance(error, tiswenor.Ended)
        assert (error.number, error.status) == (255, 0)

    def test_says_something_else(self, folder, tmp_path):
        other = tmp_path / "other"
        first = "int.from_bytes(os.read(0, 99)[4:8], 'little')"
        text = f"import os\nos.write({first}, b'hello, world')\n"
        other.write_text(f"#!{sys.executable}\n{text}")
        other.chmod(0o755)
        assert refusal(folder, server=other).name == "BadAnswer"

    def test_is_found(self, tmp_path, monkeypatch):
        program = tmp_path / "lsm_server"
        program.touch()
        program.chmod(stat.S_IRWXU)
        monkeypatch.setenv("PATH", os.fspath(tmp_path))
        monkeypatch.setenv("TISWENOR_SERVER", "/named/by/variable")
        assert find("/named") == "/named"
        assert find() == "/named/by/variable"
        monkeypatch.delenv("TISWENOR_SERVER")
        beside = pathlib.Path(tiswenor.__file__).parent / "lsm_server"
        assert find() == os.fspath(beside if beside.exists() else program)
        program.unlink()
        if not beside.exists():
            with pytest.raises(tiswenor.Error) as error:
                find()
            assert error.value.number == 250
