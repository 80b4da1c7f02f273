"""Starts the proved node of a role, and, where a command for that is given, the device."""
import asyncio
import os
import pathlib
import shlex
import signal
import subprocess

import frames
import runs

TURNS = "1000000"
PATIENCE = 20  # s; the machine may be busy
TRIES = 5


class NoProgram(Exception):
    """There is no program to start."""


def program():
    """The program that MIP names, or the one beside the tools, installed or of the repository."""
    beside = pathlib.Path(__file__).resolve().parent.parent.parent / "mip"
    it = os.environ.get("MIP") or str(beside)
    try:
        ran = subprocess.run([it, "decode"], stdin=subprocess.DEVNULL, capture_output=True, timeout=7200, check=False)
    except (OSError, subprocess.TimeoutExpired) as fault:
        raise NoProgram(f"{it}: {fault}") from fault
    if ran.returncode != 8:
        raise NoProgram(f"{it} decode ends with status {ran.returncode}, and not 8")
    return it


async def ended(process):
    """Ends a process that the kit started, and those that it started. Its end is not waited for for ever: what it still says may have no reader any more."""
    for sign in (signal.SIGTERM, signal.SIGKILL):
        if process and process.returncode is None:
            try:
                os.killpg(process.pid, sign)
                await asyncio.wait_for(process.wait(), 2)
            except (ProcessLookupError, TimeoutError):
                pass


class Node:
    """A running `mip node`, and the session at it."""

    def __init__(self, mip, role, own, cases):
        self.mip, self.role, self.own, self.cases = mip, role, own, cases
        self.process = self.session = self.drain = None

    async def begin(self):
        for _ in range(TRIES):
            port = frames.free_port()
            link = frames.UdpLink(0, port)
            text = "\n".join(self.role.configuration(port, link.port, self.own, self.cases)) + "\n"
            self.process = await asyncio.create_subprocess_exec(
                self.mip, "node", TURNS, stdin=subprocess.PIPE, stdout=subprocess.PIPE, start_new_session=True)
            self.process.stdin.write(text.encode())
            self.process.stdin.close()
            said = await self.process.stdout.readline()
            if said.startswith(b"at "):
                break
            link.socket.close()
            if await self.process.wait() != 7:
                raise NoProgram(f"{self.mip} node says {said.decode(errors='replace').strip()} to the kit's configuration")
        else:
            raise NoProgram(f"{self.mip} node finds no free port")
        self.drain = asyncio.create_task(self._drain())
        self.session = runs.Session(link, self.role, PATIENCE)
        self.session.has_barrier = True
        self.session.begin()
        return self

    async def _drain(self):
        while await self.process.stdout.read(65536):
            pass

    async def end(self):
        if self.session:
            self.session.link.end()
        await ended(self.process)
        if self.drain:
            self.drain.cancel()


async def process(words):
    """A process of the device's, in a group of its own."""
    return await asyncio.create_subprocess_exec(*words, stdin=subprocess.DEVNULL, stdout=subprocess.DEVNULL, start_new_session=True)


class Host:
    """The program of a host behind a TUN device."""

    def __init__(self, running):
        self.running = running

    async def end(self):
        await ended(self.running)


class Started:
    """A device that a command starts anew: the words PORT and KIT in it are its own port and the kit's."""

    def __init__(self, command, role, patience):
        self.command, self.role, self.patience = command, role, patience
        self.process = self.session = None

    async def begin(self):
        link = frames.UdpLink(0, frames.free_port())
        words = [it.replace("PORT", str(link.other)).replace("KIT", str(link.port)) for it in shlex.split(self.command)]
        self.process = await process(words)
        self.session = runs.Session(link, self.role, self.patience)
        self.session.begin()
        return self

    async def end(self):
        if self.session:
            self.session.link.end()
        await ended(self.process)
