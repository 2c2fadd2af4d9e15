"""AsyncCounter: the loop is never held, what is cancelled stops, and each request has its one reply."""

import asyncio
import contextlib
import functools
import inspect
import random
import socket
import time
from typing import Any, AsyncIterator, Awaitable, Callable
from unittest import mock

import pytest

import ee_counter_client as client
from tests.clients.desk import DAY, Desk, within

BONDS = [f"L{number}EE" for number in range(1, 41)]


def counter_at(desk: Desk, **options: Any) -> client.AsyncCounter:
    return client.AsyncCounter(desk.journal, desk.gate.address, desk=3, **options)


def in_a_loop(test: Callable[..., Awaitable[None]]) -> Callable[..., None]:
    @functools.wraps(test)
    def run(*words: Any, **named: Any) -> None:
        asyncio.run(test(*words, **named))  # type: ignore[arg-type]

    return run


@contextlib.asynccontextmanager
async def ticking(most: float) -> AsyncIterator[None]:
    """While what is done within waits, the loop runs other tasks: it is never held for longer than `most` seconds."""
    gaps = [0.0]

    async def tick() -> None:
        last = time.monotonic()
        while True:
            await asyncio.sleep(0.01)
            gaps.append(time.monotonic() - last)
            last = time.monotonic()

    task = asyncio.create_task(tick())
    await asyncio.sleep(0.05)
    try:
        yield
        await asyncio.sleep(0.02)
    finally:
        task.cancel()
    assert max(gaps) <= most, f"the loop was held for {max(gaps):.2f} seconds"


async def ended(call: Awaitable[object], kind: type[BaseException], most: float = 2) -> None:
    with within(most), pytest.raises(kind):
        await call


async def unanswered(desk: Desk, counter: client.AsyncCounter) -> asyncio.Task[client.Ticket]:
    """A payment under way that gets no answer."""
    await counter.ticket(1)
    desk.gate.faults = ["silent"]
    call = asyncio.create_task(counter.redeem(DAY, 7, ["L1EE"], key="invoice 1"))
    await asyncio.sleep(0.2)
    return call


@in_a_loop
async def test_calls_and_errors_are_those_of_a_counter(desk: Desk) -> None:
    async with counter_at(desk) as counter:
        ticket = await counter.redeem(DAY, 7, ["L1EE", "L2EE"], key="invoice 1")
        assert (ticket.number, str(ticket.total)) == (1, "50.00")
        assert await counter.redeem(DAY, 7, ["L1EE", "L2EE"], key="invoice 1") == ticket
        with pytest.raises(client.AlreadyPaid) as refusal:
            await counter.redeem(DAY, 7, ["L1EE"])
        assert refusal.value.ticket == 1
        with pytest.raises(client.BadValue):
            await counter.redeem(DAY, 7, "L3EE")  # type: ignore[arg-type]
        assert (counter.desk, counter.open_request) == (3, None)
        assert counter.find("invoice 1") is not None
        assert "Total" in (await counter.inventory(7, "2012-02")).text
        batch = await counter.close_day(DAY)
        assert (batch.tickets, batch.bonds) == (1, 2)
    with pytest.raises(client.Closed):
        await counter.ticket(1)
    await counter.close()
    with client.Counter(desk.journal, desk.gate.address) as later:
        assert later.find("invoice 1") is not None


def test_it_has_the_calls_of_a_counter() -> None:
    """Each call of a Counter is there, with the same parameters; so are its properties."""
    own = {"close", "stop"}
    for name, call in inspect.getmembers(client.Counter):
        if name.startswith("_") or name in own:
            continue
        found = inspect.getattr_static(client.AsyncCounter, name)
        assert isinstance(found, property) == isinstance(call, property)
        if not isinstance(call, property):
            assert inspect.signature(found) == inspect.signature(call)
            assert inspect.iscoroutinefunction(found) or name == "find"


@in_a_loop
async def test_leaving_does_not_hold_the_loop(desk: Desk) -> None:
    """A call that gets no answer has a limit as the counter is closed, and other tasks go on."""
    async with ticking(0.5):
        async with counter_at(desk) as counter:
            call = await unanswered(desk, counter)
            await counter.close(0.3)
            await ended(call, client.NoReply)
    desk.counter().close()  # the journal was given back


@in_a_loop
async def test_leaving_a_counter_holds_the_loop(desk: Desk) -> None:
    """Control: a Counter that is closed in the loop holds it for as long as its call lasts."""
    with client.Counter(desk.journal, desk.gate.address, desk=3, timeout=1.5) as counter:
        counter.ticket(1)
        desk.gate.faults = ["silent"] * 9
        call = asyncio.create_task(asyncio.to_thread(counter.redeem, DAY, 7, ["L1EE"]))
        await asyncio.sleep(0.2)
        with pytest.raises(AssertionError, match="the loop was held"):
            async with ticking(0.5):
                counter.close()
        await ended(call, client.NoReply)


@pytest.mark.parametrize("timeout", [0.2, 0.0])
@in_a_loop
async def test_a_counter_is_closed_within_a_time(desk: Desk, timeout: float) -> None:
    """The call of another thread is stopped, and its request stays open."""
    counter = client.Counter(desk.journal, desk.gate.address, desk=3)
    counter.ticket(1)
    desk.gate.faults = ["silent"]
    call = asyncio.create_task(asyncio.to_thread(counter.redeem, DAY, 7, ["L1EE"]))
    await asyncio.sleep(0.2)
    with within(timeout + 1):
        counter.close(timeout)
    await ended(call, client.NoReply)
    with client.Counter(desk.journal, desk.gate.address) as counter:
        assert counter.open_request is not None
        ticket = counter.finish()
        assert isinstance(ticket, client.Ticket) and ticket.number == 1
    assert len(desk.fake.tickets) == 1


@in_a_loop
async def test_a_cancelled_call_is_stopped(desk: Desk) -> None:
    async with ticking(0.5), counter_at(desk) as counter:
        await counter.ticket(1)
        desk.gate.faults = ["silent"]
        call = counter.redeem(DAY, 7, ["L1EE"], key="invoice 1")
        await ended(asyncio.wait_for(call, 0.3), asyncio.TimeoutError)
        assert counter.open_request is not None
        ticket = await counter.redeem(DAY, 7, ["L1EE"], key="invoice 1")
        assert ticket.request is not None
        assert (ticket.number, ticket.request.sent) == (1, 2)
    assert len(desk.fake.tickets) == 1


@in_a_loop
async def test_a_pause_is_cancelled(desk: Desk) -> None:
    """Nothing listens: the call waits between two attempts."""
    with socket.create_server(("127.0.0.1", 0)) as gone:
        address = f"http://127.0.0.1:{gone.getsockname()[1]}"
    async with client.AsyncCounter(desk.journal, address, desk=3) as counter:
        await ended(asyncio.wait_for(counter.ticket(1), 1), asyncio.TimeoutError, 3)


@in_a_loop
async def test_a_waiting_call_is_cancelled(desk: Desk) -> None:
    """A call that waits for another one isn't made."""
    async with counter_at(desk) as counter:
        first = await unanswered(desk, counter)
        second = counter.redeem(DAY, 7, ["L2EE"], key="invoice 2")
        await ended(asyncio.wait_for(second, 0.2), asyncio.TimeoutError)
        first.cancel()
        await ended(first, asyncio.CancelledError)
        assert len(desk.gate.bodies) == 1


def slow_resolver(*words: object, **named: object) -> object:
    if not named.get("flags"):
        time.sleep(3)
    raise socket.gaierror(socket.EAI_NONAME, "unknown")


@pytest.mark.parametrize("what", ["connecting", "a handshake", "the resolver"])
@in_a_loop
async def test_each_wait_of_the_network_is_stopped(desk: Desk, what: str) -> None:
    with contextlib.ExitStack() as stack:
        server = stack.enter_context(socket.create_server(("127.0.0.1", 0), backlog=0))
        port = server.getsockname()[1]
        scheme, host = "http", "127.0.0.1"
        if what == "connecting":  # the backlog is full
            for _ in range(4):
                other = stack.enter_context(socket.socket())
                other.setblocking(False)
                other.connect_ex(("127.0.0.1", port))
        elif what == "a handshake":
            scheme = "https"
        else:
            host = "counter.desk.example"
            stack.enter_context(mock.patch("socket.getaddrinfo", slow_resolver))
        address = f"{scheme}://{host}:{port}"
        async with client.AsyncCounter(desk.journal, address, desk=3) as counter:
            await ended(asyncio.wait_for(counter.ticket(1), 0.5), asyncio.TimeoutError)


@in_a_loop
async def test_a_call_that_is_not_woken_goes_on(desk: Desk) -> None:
    """Control: if nothing wakes the socket, a cancelled call holds its desk for the time of a sending."""
    with mock.patch("ee_counter_client.way.shut", lambda connection: None):
        async with counter_at(desk, time_limit=4) as counter:
            call = await unanswered(desk, counter)
            with pytest.raises(AssertionError):
                await ended(asyncio.wait_for(call, 0.3), asyncio.TimeoutError)


@in_a_loop
async def test_an_error_stops_what_is_under_way(desk: Desk) -> None:
    """Leaving after an error doesn't wait for the call of another task."""
    with within(2), pytest.raises(ZeroDivisionError):
        async with counter_at(desk) as counter:
            call = await unanswered(desk, counter)
            1 / 0
    await ended(call, client.NoReply)


async def pay_all(desk: Desk, dice: random.Random) -> int:
    """Pays each bond under its key, by tasks that are cancelled at any moment and begin again. Returns the cancellations."""
    cancelled = 0

    async def pay(counter: client.AsyncCounter, serial: str) -> client.Ticket:
        nonlocal cancelled
        while True:
            try:
                call = counter.redeem(DAY, 7, [serial], key=serial)
                return await asyncio.wait_for(call, dice.uniform(0.0, 0.3))
            except asyncio.TimeoutError:
                cancelled += 1

    async with counter_at(desk) as counter:
        tickets = await asyncio.gather(*(pay(counter, serial) for serial in BONDS))
    assert sorted(ticket.number for ticket in tickets) == list(range(1, len(BONDS) + 1))
    assert sorted(ticket.lines[0].serial for ticket in tickets) == sorted(BONDS)
    return cancelled


def test_cancelled_jobs_pay_once(desk: Desk, dice: random.Random) -> None:
    desk.has(*BONDS)
    faults = ["lost request", "lost answer", "cut answer", "failed after", "too many"]
    desk.gate.faults = dice.choices(faults, k=40)
    with mock.patch("ee_counter_client.lookups.PAUSES", (0.02,)):
        cancelled = asyncio.run(pay_all(desk, dice))
    assert cancelled > 10
    assert len(desk.fake.tickets) == len(BONDS)
    paid = [line["serial"] for ticket in desk.fake.tickets for line in ticket["lines"]]
    assert sorted(paid) == sorted(BONDS)
