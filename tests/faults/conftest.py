"""The scenes over which calls fail: stores in every state, and the commands that meet them."""

import pytest

from tests.shared.hostile import scenes as made
from tests.shared.hostile.program import Program
from tests.shared.hostile.scenes import Scene


@pytest.fixture(scope="session")
def scenes(hostile: Program) -> dict[str, Scene]:
    found = [*made.connections(hostile), *made.files(hostile)]
    return {scene.name: scene for scene in found}
