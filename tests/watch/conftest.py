"""The tests of watching and of who asked use the fixtures of the fence."""

from tests.fence.conftest import counter, root, site

__all__ = ["counter", "root", "site"]
