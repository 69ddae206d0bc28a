"""What senders have sent, each in a queue of its own, taken in turn: one that sends much keeps no
other one waiting."""
import collections

# How many packets of a sender wait at most, and of how many senders.
PACKETS, SENDERS = 64, 64


class Senders:
    """The queues. Of a sender's packets, and of the senders, the oldest leave where there are too
    many, and are counted in `dropped` by their sender."""

    def __init__(self) -> None:
        self.queues: collections.OrderedDict[str, collections.deque] = collections.OrderedDict()
        self.dropped: collections.Counter = collections.Counter()

    def put(self, sender: str, packet: object) -> None:
        """A packet has come."""
        queue = self.queues.setdefault(sender, collections.deque())
        queue.append(packet)
        if len(queue) > PACKETS:
            queue.popleft()
            self.dropped[sender] += 1
        while len(self.queues) > SENDERS:
            oldest, left = self.queues.popitem(last=False)
            self.dropped[oldest] += len(left)

    def take(self) -> tuple[str, object] | None:
        """The next packet, and whose it is: each sender's turn comes once in a round."""
        if not self.queues:
            return None
        sender, queue = self.queues.popitem(last=False)
        packet = queue.popleft()
        if queue:
            self.queues[sender] = queue
        return sender, packet

    def lost(self) -> dict[str, int]:
        """How many were dropped since this was asked last, by sender."""
        found, self.dropped = dict(self.dropped), collections.Counter()
        return found
