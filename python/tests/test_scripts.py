# SPDX-License-Identifier: MIT OR Apache-2.0
"""The worked scripts of the repository give the same transcripts through the package."""
import pathlib
import sys

import pytest
from play import transcript

sys.path.append(str(pathlib.Path(__file__).resolve().parents[2] / "tests"))
from rows import all_scripts

SCRIPTS = [(place, script, wanted) for place, script, wanted, fault in all_scripts() if not fault]


def test_there_are_scripts():
    assert len(SCRIPTS) >= 100


@pytest.mark.parametrize(("script", "wanted"), [it[1:] for it in SCRIPTS], ids=[it[0] for it in SCRIPTS])
def test_script(script, wanted):
    assert transcript(script.decode("latin-1")) == wanted
