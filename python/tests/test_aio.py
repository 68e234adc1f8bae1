"""The client for asyncio."""
import asyncio
import inspect
import os
import unittest
from collections.abc import Coroutine
from typing import Any

import beside  # noqa: F401
from redodb import AsyncClient, Client, aio, reach
from redodb.errors import BadName, RefusedError, ServerError
from redodb.replies import Busy, Forgotten, Granted, Names, Reason, Ring, State, Why
from served import PATIENCE, RUNS, ServedTree, eventually, program_or_skip
from test_client import COMMANDS, run_examples


class Examples(unittest.TestCase):
    def test_are_true(self) -> None:
        program_or_skip()
        self.assertEqual(run_examples(aio), (1, 0))

    def test_methods_are_those_of_the_plain_client(self) -> None:
        for name in (*COMMANDS, "ask", "ask_all", "close"):
            plain, other = getattr(Client, name), getattr(AsyncClient, name)
            self.assertTrue(inspect.iscoroutinefunction(other), name)
            self.assertEqual(inspect.signature(plain), inspect.signature(other), name)


class Calls(ServedTree):
    def run_with(self, work: Coroutine[Any, Any, None]) -> None:
        async def within() -> None:
            async with asyncio.timeout(PATIENCE):
                await work

        asyncio.run(within())

    def client_(self) -> AsyncClient:
        return AsyncClient(self.top, idle=0.05)

    def test_of_a_small_project(self) -> None:
        async def work() -> None:
            async with self.client_() as one, self.client_() as two:
                await one.file("util.h", "1")
                self.assertEqual(await one.lock("util.o"), Granted(1))
                await one.start("util.o")
                self.assertEqual(await one.ifchange("util.o", ["util.h"]), Names(()))
                await one.ifcreate("util.o", ["config.h"])
                self.assertEqual(
                    await one.stamp("util.o", b"abc"), "a9993e364706816aba3e25717850c26c9cd0d89d"
                )
                await one.done("util.o", "2")
                await one.unlock("util.o")
                await one.gone("util.h")
                self.assertEqual(
                    await two.why("util.o"), Why(Reason.CHANGED, b"util.h", (b"util.o",))
                )
                self.assertEqual((await two.deps("util.o")).created, (b"config.h",))
                self.assertEqual(
                    [list(await asked()) for asked in (two.ood, two.targets, two.sources)],
                    [[b"util.o"], [b"util.o"], []],
                )
                self.assertEqual(await one.wait("all"), Granted(1))
                await one.start("all")
                await one.always("all")
                await one.failed("all")
                self.assertEqual((await two.state("all")).state, State.FAILED)
                self.assertEqual(await two.lock("all"), Busy(1))
                await one.end()
                self.assertEqual(await two.lock("all"), Granted(2))
                self.assertEqual(await two.look(["none"]), 0)
                with self.assertRaises(RefusedError):
                    await two.unlock("other")
                with self.assertRaises(BadName):
                    await two.lock("a b")

        self.run_with(work())

    def test_go_on_beside_a_wait(self) -> None:
        async def work() -> None:
            async with self.client_() as one, self.client_() as two:
                await one.lock("a")
                waits = [asyncio.create_task(two.wait("a")) for _ in range(3)]
                self.assertEqual(await two.lock("b"), Granted(1))
                self.assertFalse(any(wait.done() for wait in waits))
                await one.unlock("a")
                for number, wait in enumerate(waits, 2):
                    self.assertEqual(await wait, Granted(number))
                    self.assertFalse(any(other.done() for other in waits[number - 1 :]))
                    await two.unlock("a")

        self.run_with(work())

    def test_many_at_once_are_answered_each_by_its_own(self) -> None:
        async def work() -> None:
            async with self.client_() as one:
                await one.ask_all([b"file f%d %d" % (number, number) for number in range(3000)])
                states = await asyncio.gather(*(one.state(f"f{number}") for number in range(3000)))
                self.assertEqual(
                    [state.stamp for state in states], [str(number) for number in range(3000)]
                )

        self.run_with(work())

    def test_tell_a_ring_and_what_was_forgotten(self) -> None:
        async def work() -> None:
            async with self.client_() as one, self.client_() as two:
                await one.wait("a")
                await two.wait("b")
                parked = asyncio.create_task(one.wait("b", "a"))
                await one.state("a")
                self.assertEqual(await two.wait("a", "b"), Ring((b"a", b"b", b"a")))
                self.assertTrue(await one.forget("b", "a"))
                self.assertEqual(await parked, Forgotten())
                self.assertFalse(await one.forget("b", "a"))

        self.run_with(work())

    def test_wait_no_longer_than_they_may(self) -> None:
        async def work() -> None:
            async with self.client_() as one, self.client_() as two:
                await one.lock("a")
                with self.assertRaises(TimeoutError):
                    await two.wait("a", timeout=0.05)
                await one.unlock("a")
                self.assertIsNone((await two.state("a")).holder)
                self.assertEqual(await two.wait("a", timeout=5), Granted(2))

        self.run_with(work())

    def test_that_are_cancelled_leave_no_lock(self) -> None:
        async def work() -> None:
            async with self.client_() as one, self.client_() as two:
                await one.lock("a")
                parked = asyncio.create_task(two.wait("a"))
                await two.state("a")
                parked.cancel()
                await asyncio.gather(parked, return_exceptions=True)
                await one.unlock("a")
                self.assertIsNone((await two.state("a")).holder)
                for turns in range(12):
                    at_once = asyncio.create_task(two.wait("b"))
                    for _ in range(turns):
                        await asyncio.sleep(0.0002 * turns)
                    at_once.cancel()
                    if (await asyncio.gather(at_once, return_exceptions=True))[
                        0
                    ].__class__ is Granted:
                        await two.unlock("b")
                    await two.state("b")
                    await two.state("b")
                    self.assertIsNone((await two.state("b")).holder)

        self.run_with(work())

    def test_all_fail_where_the_server_ends(self) -> None:
        server = self.serve(idle=60)

        async def work() -> None:
            async with self.client_() as one, self.client_() as two:
                await one.lock("a")
                parked = asyncio.create_task(two.wait("a"))
                await two.state("a")
                server.terminate()
                with self.assertRaisesRegex(ServerError, "the server was told to end"):
                    await parked
                with self.assertRaises(ServerError):
                    await two.state("a")

        self.run_with(work())

    def test_fail_where_nothing_is_connected(self) -> None:
        async def work() -> None:
            client = self.client_()
            with self.assertRaises(ServerError):
                await client.state("a")
            await client.connect()
            await client.close()
            await client.close()
            with self.assertRaises(ServerError):
                await client.state("a")

        self.run_with(work())

    def test_go_on_with_a_plain_connection(self) -> None:
        lines = reach.connect(os.fsencode(self.top), idle=0.05)
        self.assertEqual(lines.ask(b"lock a"), b"granted 1")
        session = lines.session

        async def work() -> None:
            client = self.client_()
            await client.connect(lines)
            self.assertEqual(client.session, session)
            await client.unlock("a")
            await client.close()

        self.run_with(work())

    def test_wait_for_a_session_no_longer_than_they_may(self) -> None:
        self.serve(idle=60)
        clients = [self.client() for _ in range(RUNS)]

        async def work() -> None:
            with self.assertRaises(TimeoutError):
                await AsyncClient(self.top, timeout=0.2).connect()
            client = self.client_()
            waiting = asyncio.create_task(client.connect())
            await asyncio.sleep(0.1)
            self.assertFalse(waiting.done())
            clients[0].close()
            await waiting
            self.assertEqual(client.session, 1)
            await client.close()

        self.run_with(work())

    def test_that_fail_at_the_start_say_why(self) -> None:
        self.places.make()
        with open(self.places.log, "w", encoding="ascii") as log:
            log.write("no log\n")

        async def work() -> None:
            with self.assertRaisesRegex(ServerError, "line 1 differs"):
                await self.client_().connect()

        self.run_with(work())

    def test_leave_nothing_behind(self) -> None:
        async def work() -> None:
            async with self.client_() as one:
                await one.lock("a")

        self.run_with(work())
        self.assertTrue(
            eventually(lambda: self.log() == ["1 lock a => granted 1", "1 unlock a => ok"])
        )
