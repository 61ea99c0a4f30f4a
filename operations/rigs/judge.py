"""The judgement of what a client finds, by what those before it have sent and heard."""
from tests.power.machine import Dead
from tests.system.meaning import empty_state, lines_that_read, state_of_replies
from tests.system.servers import COMMON, state_left
from .guest import PATIENCE

WINDOW_OF_READS = 1000  # lines that may wait for their replies


class Judge:
    """Of the clients of one device. `state` is what the last one that was judged has found there."""

    def __init__(self, clients):
        self.clients = clients
        self.state = empty_state(COMMON)

    def read_all(self, guests, seconds):
        """What a next client is told of all that the server holds."""
        one = self.clients.session(guests, seconds)
        skipped = len(one.heard)
        if not one.send(lines_that_read(COMMON), WINDOW_OF_READS):
            raise Dead("no server tells what it holds")
        one.socket.close()
        return one.heard[skipped:].decode().splitlines()

    def look(self, guests, seconds=PATIENCE):
        """What is found now is what has to be there from now on."""
        self.state = state_of_replies(COMMON, self.read_all(guests, seconds))

    def judge(self, guests, old, seconds=PATIENCE):
        """What a next client finds of the one before, in words. It fails where a change is missing that was
        acknowledged, or where something is there that nobody has made."""
        old.socket.close()
        told = self.read_all(guests, seconds)
        self.state = state_left(COMMON, self.state, old.sent, old.heard, told)
        changes = old.heard.count(b"done\n")
        return f"none missing of {changes} changes, {old.answered} of {len(old.sent)} lines answered"
