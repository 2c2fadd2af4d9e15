"""`.ci/inner` tells where a definition stands: `specs/` if an exported contract reaches it,
`specs/Inner/` if private ones alone do, and neither if none does."""

import shutil
import subprocess
from pathlib import Path

from tests.conftest import TOP

CODE = """ghost use Rattle.one.specs.Words.{IsShown};
ghost use Rattle.one.specs.PLACEWords.{IsInner};

pub fn shown() -> u8
    ensures { IsShown result }
{
    inner()
}

fn inner() -> u8
    ensures { IsInner result }
{
    1
}
"""
WORDS = "abbrev pub IsUnder : ℕ → Bool\nIsUnder n = n == 1\n\nabbrev pub IsShown : ℕ → Bool\nIsShown n = IsUnder n\n\n"
INNER = "abbrev pub IsInner : ℕ → Bool\nIsInner n = n == 1\n\n"
ALONE = "abbrev pub IsAlone : ℕ → Bool\nIsAlone n = n == 1\n\n"


def faults(crate: Path, place: str, more: str = "", shows: str = "") -> list[str]:
    """With `IsInner` in this place, more definitions in `specs/Words.antt`, and `inner` private or
    not."""
    texts = {"Words": WORDS + more, "Inner/Words": ""}
    texts[f"{place.replace('.', '/')}Words"] += INNER
    for name, text in texts.items():
        (crate / f"specs/{name}.antt").write_text(text)
    code = CODE.replace("PLACE", place).replace("\nfn inner", f"\n{shows}fn inner")
    (crate / "src/code.rt").write_text(code)
    ran = subprocess.run([crate.parent.parent / ".ci/inner"], capture_output=True, text=True)
    *told, last = ran.stdout.splitlines()
    assert last.endswith(f" definitions: {1 if place else 0} in specs/Inner"), ran.stderr
    assert ran.returncode == (1 if told else 0)
    return [line.removeprefix("crates/one/specs/") for line in told]


def test_inner_definitions(folder: Path) -> None:
    crate = folder / "crates/one"
    for path in (folder / ".ci", crate / "src", crate / "specs/Inner"):
        path.mkdir(parents=True)
    for name in ("inner", "contracts.py"):
        shutil.copy(TOP / ".ci" / name, folder / ".ci")
    (crate / "src/lib.rt").write_text("mod code;\n\npub use code::{inner, shown};\n")
    assert faults(crate, "Inner.") == [], "control"
    private = "private contracts alone reach it: move it to specs/Inner/"
    assert faults(crate, "") == [f"Words.antt: IsInner: {private}"]
    none = "no contract reaches it: move it to proofs/"
    assert faults(crate, "Inner.", ALONE) == [f"Words.antt: IsAlone: {none}"]
    public = "a public contract reaches it: move it to specs/"
    assert faults(crate, "Inner.", "", "pub ") == [f"Inner/Words.antt: IsInner: {public}"]
    assert faults(crate, "", "", "pub ") == [], "control"
