"""Certificates that aren't of the staff, or not any more, and subjects that look like another person's."""

import contextlib
import datetime
import ssl
import time
from pathlib import Path
from typing import Any, Callable, Iterator

import pytest
from cryptography import x509
from cryptography.hazmat.primitives import hashes, serialization
from cryptography.hazmat.primitives.asymmetric import ec
from cryptography.x509.oid import ExtendedKeyUsageOID, NameOID

from tests.fence.site import ANSWER, RecordedSite
from tests.fence.site import Answer, answer_in, connected, everything, message, sent

GROUPS = {"anna": "teller", "bert": "supervisor"}
PEM = serialization.Encoding.PEM
KEY = ec.generate_private_key(ec.SECP256R1())
DAY = datetime.timedelta(days=1)
NAME, SERIAL, USER_ID = NameOID.COMMON_NAME, NameOID.SERIAL_NUMBER, NameOID.USER_ID
UNIT, BANK = NameOID.ORGANIZATIONAL_UNIT_NAME, NameOID.ORGANIZATION_NAME
USAGE = ExtendedKeyUsageOID
Part = tuple[x509.ObjectIdentifier, str]


def subject(*parts: Part | list[Part]) -> x509.Name:
    """A subject of these parts, the most general first. A part may have several kinds."""
    sets = [part if isinstance(part, list) else [part] for part in parts]
    names = [[x509.NameAttribute(*one, _validate=False) for one in part] for part in sets]
    return x509.Name([x509.RelativeDistinguishedName(those) for those in names])


def named(name: str) -> x509.Name:
    return subject((NAME, name))


class Authority:
    """Signs any certificate for the one key of this test's clients."""

    def __init__(self, name: x509.Name, key: ec.EllipticCurvePrivateKey) -> None:
        self.name, self.key = name, key

    def certificate(
        self, name: x509.Name, since: int = -1, until: int = 1, usage: Any = USAGE.CLIENT_AUTH
    ) -> str:
        now = datetime.datetime.utcnow()
        dates, number = (now + since * DAY, now + until * DAY), x509.random_serial_number()
        made = x509.CertificateBuilder(self.name, name, KEY.public_key(), number, *dates)
        made = made.add_extension(x509.ExtendedKeyUsage([usage]), False)
        signed: bytes = made.sign(self.key, hashes.SHA256()).public_bytes(PEM)
        return signed.decode()


def of_easyrsa(staff: Path) -> Authority:
    key = serialization.load_pem_private_key((staff / "private/ca.key").read_bytes(), None)
    assert isinstance(key, ec.EllipticCurvePrivateKey)
    certificate = x509.load_pem_x509_certificate((staff / "ca.crt").read_bytes())
    return Authority(certificate.subject, key)


class Scene(RecordedSite):
    """A site whose authority signs what it shouldn't."""

    def __init__(self, folder: Path, **changed: str) -> None:
        super().__init__(folder, GROUPS, changed)
        self.authority = of_easyrsa(self.staff.folder)

    def client(self, certificate: str) -> ssl.SSLContext:
        form = serialization.PrivateFormat.PKCS8
        key = KEY.private_bytes(PEM, form, serialization.NoEncryption())
        file = self.folder / "client.pem"
        file.write_text(certificate + key.decode())
        made = self.context(None)
        made.load_cert_chain(file)
        return made

    def answer(self, context: ssl.SSLContext, line: bytes) -> Answer:
        return answer_in(sent(self, context, [message(line)], wait=10))

    def rights(self, context: ssl.SSLContext) -> tuple[str | None, str, bool, bool]:
        """What a client has: the name and groups that /user says, and whether it is served as a teller and as a supervisor."""
        user = self.answer(context, b"GET /user HTTP/1.1").json()
        lines = (b"POST /redeem HTTP/1.1", b"POST /day/close HTTP/1.1")
        teller, supervisor = (self.answer(context, one).text == ANSWER.decode() for one in lines)
        return user.get("user"), user.get("groups", ""), teller, supervisor

    def rights_of(self, name: x509.Name) -> tuple[str | None, str, bool, bool]:
        return self.rights(self.client(self.authority.certificate(name)))


@pytest.fixture(scope="module")
def scene(tmp_path_factory: pytest.TempPathFactory) -> Iterator[Scene]:
    with Scene(tmp_path_factory.mktemp("certificates")) as made:
        yield made


NOBODY = (None, "", False, False)
ANNA = named("anna")
SELF = Authority(ANNA, KEY)
#: Certificates that get nothing, by the site's authority. A chain may have more than one.
KEPT_OUT: dict[str, Callable[[Authority], str]] = {
    "another authority": lambda _: Authority(named("other"), KEY).certificate(ANNA),
    "another authority of the same name": lambda own: Authority(own.name, KEY).certificate(ANNA),
    "signed for itself": lambda _: SELF.certificate(ANNA),
    "signed by a teller": lambda own: SELF.certificate(named("bert")) + own.certificate(ANNA),
    "ended yesterday": lambda own: own.certificate(ANNA, -2, -1),
    "from tomorrow": lambda own: own.certificate(ANNA, 1, 2),
    "a server's": lambda own: own.certificate(ANNA, usage=USAGE.SERVER_AUTH),
    "for signing programs": lambda own: own.certificate(ANNA, usage=USAGE.CODE_SIGNING),
}


@pytest.mark.parametrize("made", KEPT_OUT.values(), ids=KEPT_OUT)
def test_who_is_kept_out(scene: Scene, made: Callable[[Authority], str]) -> None:
    context = scene.client(made(scene.authority))
    before = scene.log()
    assert scene.rights(context) == NOBODY
    for line in (b"GET /teller/ HTTP/1.1", b"GET /user HTTP/1.1", b"POST /redeem HTTP/1.1"):
        answer = scene.answer(context, line)
        assert (answer.status, answer.json()["forbidden"]) == (400, "certificate")
    assert scene.log() == before, "nor does the log name anybody"


def test_control_a_teller_is_let_in(scene: Scene) -> None:
    assert scene.rights_of(ANNA) == ("anna", "teller", True, False)
    assert scene.rights(scene.context("bert")) == ("bert", "supervisor", False, True)


def test_control_without_the_test_of_certificates_anybody_is_let_in(tmp_path: Path) -> None:
    changed = {"ssl_verify_client on": "ssl_verify_client optional_no_ca"}
    with Scene(tmp_path, **changed, **{"$ssl_client_verify ": "SUCCESS "}) as scene:
        assert scene.rights(scene.client(KEPT_OUT["another authority"](scene.authority)))[2]


#: Subjects that look like bert's, and the name of each. None but his own is bert.
SUBJECTS = {
    "a unit with a comma": (subject((UNIT, "x,CN=bert")), ""),
    "a name with a comma": (named("x,CN=bert"), ""),
    "a name and a comma behind it": (named("bert,O=Bank"), ""),
    "a unit behind the name": (subject((NAME, "bert"), (UNIT, "x")), ""),
    "two names in one part": (subject([(NAME, "anna"), (NAME, "bert")]), ""),
    "a name and a unit in one part": (subject([(NAME, "bert"), (UNIT, "x")]), ""),
    "two names, anna last": (subject((NAME, "bert"), (NAME, "anna")), "anna"),
    "a blank within": (named("bert x"), ""),
    "a blank before": (named(" bert"), ""),
    "a blank behind": (named("bert "), ""),
    "an empty name": (named(""), ""),
    "an empty name behind bert's": (subject((NAME, "bert"), (NAME, "")), ""),
    "no subject": (subject(), ""),
    "NUL behind": (named("bert\0"), ""),
    "the end of a line behind": (named("bert\n"), ""),
    "the end of a line before": (named("x\nCN=bert"), ""),
    "a plus": (named("bert+CN=anna"), ""),
    "a slash": (named("x/CN=bert"), ""),
    "quotes": (named('"bert"'), ""),
    "a backslash": (named("x\\,CN=bert"), ""),
    "a value in hexadecimal": (named("#0c0462657274"), ""),
    "letters that look the same": (named("b\u0435rt"), ""),
    "wide letters": (named("\uff42ert"), ""),
    "a space of no width": (named("bert\u200b"), ""),
    "65 letters": (named("b" * 65), ""),
    "a serial number": (subject((SERIAL, "1,CN=bert")), ""),
    "a user's id": (subject((USER_ID, "bert")), ""),
    "a group's name": (named("supervisor"), "supervisor"),
    "capitals": (named("BERT"), ""),
    "a capital": (named("Bert"), ""),
}


def test_no_subject_is_taken_for_another_person(scene: Scene) -> None:
    for kind, (name, user) in SUBJECTS.items():
        found = scene.rights_of(name)
        assert found == (user, GROUPS.get(user, ""), user == "anna", False), kind
        assert not user or scene.log()[-1]["user"] == user, kind
    with_bank = subject((BANK, "Bank"), (UNIT, "desk 3"), (NAME, "bert"))
    assert scene.rights_of(with_bank)[0] == "bert"


CN = "CN=(?<cn>[a-z0-9._@-]{1,64})"
LOOSE = {f'"~^SUCCESS {CN}(,|$)" $cn;': f'"~*{CN}" $cn;'}


def test_control_by_a_looser_pattern_others_are_bert(tmp_path: Path) -> None:
    with Scene(tmp_path, **LOOSE) as scene:
        let_in = {kind for kind, (name, _) in SUBJECTS.items() if scene.rights_of(name)[3]}
    assert {"a unit with a comma", "capitals", "a blank behind", "two names in one part"} <= let_in


def resumed(scene: Scene, version: ssl.TLSVersion) -> int:
    scene.staff.hire("carl")
    context = scene.context("carl")
    context.minimum_version = context.maximum_version = version
    session: ssl.SSLSession | None = None
    for nth in range(2):
        with connected(scene, context, 10, session) as wire:
            wire.sendall(message(b"GET /user HTTP/1.1"))
            status, session = answer_in(everything(wire)).status, wire.session
        if nth == 0:
            assert status == 200
            scene.staff.dismiss("carl")
            scene.reload()
    return status


VERSIONS = (ssl.TLSVersion.TLSv1_2, ssl.TLSVersion.TLSv1_3)


@pytest.mark.parametrize("version", VERSIONS)
def test_a_resumed_session_of_the_revoked(scene: Scene, version: ssl.TLSVersion) -> None:
    assert resumed(scene, version) == 400


def test_control_with_a_cache_of_sessions_it_is_let_in(tmp_path: Path) -> None:
    with Scene(tmp_path, **{"ssl_session_cache off": "ssl_session_cache shared:test:1m"}) as scene:
        assert [resumed(scene, version) for version in VERSIONS] == [200, 200]


def outdate(staff: Path) -> None:
    """Puts a list of revoked certificates whose last day was yesterday into the place of an authority's."""
    now = datetime.datetime.utcnow()
    authority = of_easyrsa(staff)
    made = x509.CertificateRevocationListBuilder(authority.name, now - 3 * DAY, now - DAY)
    text = made.sign(authority.key, hashes.SHA256())
    (staff / "crl.pem").write_bytes(text.public_bytes(PEM))


def test_a_list_of_revoked_certificates_past_its_date_keeps_everybody_out(scene: Scene) -> None:
    outdate(scene.staff.folder)
    scene.reload()
    answer = scene.ask("anna", "GET", "/user")
    assert (answer.status, answer.json()["forbidden"]) == (400, "certificate")
    scene.staff.easyrsa("gen-crl")
    scene.reload()
    assert scene.ask("anna", "GET", "/user").status == 200, "control: a new list lets them in"


@pytest.mark.parametrize("is_cut_off", [True, False], ids=["cut off", "control"])
def test_a_teller_who_is_revoked_in_mid_body(tmp_path: Path, is_cut_off: bool) -> None:
    """She sends a payment for 15 seconds. Meanwhile her certificate is revoked, and nginx reloaded. Without the limit of its old workers, the control, she pays."""
    whole = message(b"POST /redeem HTTP/1.1", b"{" + b" " * 28 + b"}")
    changed = {} if is_cut_off else {"worker_shutdown_timeout 10s;": ""}
    with Scene(tmp_path, **changed) as scene:
        with connected(scene, scene.context("anna"), 30) as wire:
            wire.sendall(whole[:-30])
            scene.staff.dismiss("anna")
            scene.reload()
            begun = time.monotonic()
            with contextlib.suppress(OSError):
                for at in range(len(whole) - 30, len(whole)):
                    wire.sendall(whole[at : at + 1])
                    time.sleep(0.5)
            everything(wire)
        lived, paid = time.monotonic() - begun, len(scene.recorder.take())
        assert (5 < lived < 12, lived > 14, paid) == (is_cut_off, not is_cut_off, not is_cut_off)
        assert scene.ask("anna", "GET", "/user").status == 400
