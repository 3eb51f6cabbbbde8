"""The same for asyncio: many tasks ask over one connection at a time, and none waits for another one's reply."""
import asyncio
import collections
from dataclasses import replace

from .client import Answer, forget, keep_late, taken
from .connection import PIECE, Frames
from .fields import counted
from .replies import Unbelieved

# So many bytes may wait to be written before a task waits too.
MOST_WAITING = 1 << 20


async def open_client(channel, host, port, seconds=30):
    """A client of the channel over a new TCP connection. It fails by an OSError where that takes longer than so many
    seconds."""
    try:
        reader, writer = await asyncio.wait_for(asyncio.open_connection(host, port), seconds)
    except asyncio.TimeoutError as fault:
        raise TimeoutError(f"no connection in {seconds} seconds") from fault
    return AsyncClient(channel, reader, writer, seconds)


class AsyncClient:
    """A channel over a connection, for the tasks of one event loop. Where the reply that is due is not there as a whole in so
    many seconds, of those behind others from when these came, the connection has failed. `failed` says why; it is closed
    then, and what is asked over it is not sent. Of answers that come late the last are kept, as by Client."""

    def __init__(self, channel, reader, writer, seconds=30):
        self.channel, self.reader, self.writer, self.seconds = channel, reader, writer, seconds
        # By number what was asked and got no reply, and the futures of those whose caller waits; and these numbers, in order.
        self.waiting, self.futures, self.due = collections.OrderedDict(), {}, collections.deque()
        # `by` is the moment by which the reply that is due has to be there.
        self.frames, self.late, self.failed, self.listening, self.by = Frames(), [], "", None, 0

    async def __aenter__(self):
        return self

    async def __aexit__(self, *fault):
        await self.close()

    async def close(self):
        """Ends the connection. Who waits gets an answer without a reply."""
        self._fail("the connection was closed")
        if self.listening:
            self.listening.cancel()
        try:
            await self.writer.wait_closed()
        except OSError:
            pass

    async def ask(self, object, operation, certificates=(), quoted=None):
        """Sends one request, and gives its answer."""
        if self.failed:
            return self.channel.not_sent(self.channel.unnumbered(object, operation, certificates, quoted), self.failed)
        request = self.channel.request(object, operation, certificates, quoted)
        asked = Answer(request, sent=request.payload(self.channel.key))
        future = asyncio.get_running_loop().create_future()
        if not self.due:
            self._give_time()
        self.waiting[request.number], self.futures[request.number] = asked, future
        self.due.append(request.number)
        self.writer.write(counted(asked.sent, 4))
        if self.listening is None:
            self.listening = asyncio.ensure_future(self._listen())
        if self.writer.transport.get_write_buffer_size() > MOST_WAITING:
            await self._drain()
        return await future

    async def _drain(self):
        try:
            await self.writer.drain()
        except OSError as fault:
            self._fail(f"the connection failed: {fault}")

    def _give_time(self):
        self.by = asyncio.get_running_loop().time() + self.seconds

    async def _listen(self):
        """Takes frames as long as one is due."""
        try:
            while self.due:
                left = self.by - asyncio.get_running_loop().time()
                piece = await asyncio.wait_for(self.reader.read(PIECE), left)
                if not piece:
                    self._fail("the connection ended")
                for payload in self.frames.take(piece):
                    self._take(payload)
                    if self.failed:
                        break
        except asyncio.TimeoutError:
            self._fail(f"no whole answer in {self.seconds} seconds")
        except OSError as fault:
            self._fail(f"the connection failed: {fault}")
        finally:
            self.listening = None

    def _take(self, payload):
        """A node answers each frame by one, in their order: where this one is a reply without a seal, the request in front
        gets none."""
        try:
            answer = taken(self.channel, self.waiting, payload)
        except Unbelieved as told:
            if not told.told:
                self._fail(told.why)
            elif self.due:
                self._give(replace(self.waiting[self.due.popleft()], why=told.why))
                self._give_time()
                forget(self.waiting, len(self.waiting) - len(self.due) - self.channel.most_unsettled)
            return
        if answer.request.number in self.futures:
            self.due.remove(answer.request.number)
            self._give_time()
        self._give(answer)

    def _give(self, answer):
        future = self.futures.pop(answer.request.number, None)
        if future and not future.done():
            future.set_result(answer)
        elif answer.reply:
            keep_late(self.late, answer, self.channel.most_unsettled)

    def _fail(self, why):
        """Closes the connection, since it ended, or nobody knows any more where the next frame begins."""
        self.failed = self.failed or why
        self.writer.transport.abort()
        self.due.clear()
        for number in list(self.futures):
            self._give(replace(self.waiting[number], why=why))
        self.waiting.clear()
        self.frames = Frames()


class AsyncSession:
    """A channel at a node, over one connection at a time, for the tasks of one event loop. `dial` gives a new AsyncClient of the
    channel, as `lambda: open_client(channel, host, port)`. As by Session one is made when it is needed, and what finds none is
    not sent, or is sent once."""

    def __init__(self, channel, dial):
        self.channel, self.dial, self.client, self.dialling = channel, dial, None, None

    async def __aenter__(self):
        return self

    async def __aexit__(self, *fault):
        await self.close()

    async def close(self):
        """Ends the connection. The next request makes another one."""
        client, self.client = self.client, None
        if client:
            await client.close()

    async def ask(self, object, operation, certificates=(), quoted=None):
        """Sends one request, and gives its answer. Where no connection can be made, it is not sent, and no number is used."""
        try:
            client = await self._connected()
        except OSError as fault:
            return self.channel.not_sent(self.channel.unnumbered(object, operation, certificates, quoted), f"no connection: {fault}")
        return await client.ask(object, operation, certificates, quoted)

    async def _connected(self):
        """The client. Tasks that come while one is made wait for the same."""
        if self.client and not self.client.failed:
            return self.client
        if self.dialling is None:
            self.dialling = asyncio.ensure_future(self._dial())
        return await asyncio.shield(self.dialling)

    async def _dial(self):
        try:
            self.client = await self.dial()
            return self.client
        finally:
            self.dialling = None
