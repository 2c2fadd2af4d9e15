"""What is asked of a store after a run that met faults: the books, and one reply each."""
import os

from . import judging, store
from .judging import Many, Wrong
from .program import Program, Ran
from .scenes import Scene


def put(scene: Scene, path: str) -> None:
    """Lay the store of a scene at a path."""
    store.remove(path)
    if scene.base:
        store.copy(scene.base, path)


def shows_ample(scene: Scene, ran: Ran, path: str) -> None:
    """A run that met nothing has all its answers, and leaves the rows of the day."""
    many = scene.command.ample(ran, [scene.books])
    judging.shows_books(many, store.rows(path), "after a run that met nothing")


def come_back(
    program: Program, scene: Scene, path: str, many: Many, at_rest: bool, forgets: bool = False
) -> None:
    """What the store has, and then the same requests again. `forgets` loses the log before."""
    if forgets and os.path.exists(store.log_of(path)):
        os.remove(store.log_of(path))
    if not at_rest:
        many = judging.exports_one(many, program.export(path), "the next command")
    many = judging.shows_books(many, store.rows(path), "before the same requests again")
    ran = scene.command.run(program, path)
    many = scene.command.ample(ran, many)
    judging.shows_books(many, store.rows(path), "after the same requests again")
    if not store.is_whole(path):
        raise Wrong("SQLite doesn't find the store whole")
