"""A log that threads share without a lock, and its sender and subscriber, for Python, over a shared library made of the archive.

    log = Log(library); publisher, reader, keeper = log.publisher(), log.reader(), log.keeper()
    keeper.set_connected(True); keeper.clean_and_limit()
    publisher.offer(b"hello")
    for message in reader.messages(): ...

ctypes lets go of Python's own lock during a call: each handle is for one thread at a time, as in C. Run as a program, it takes
the path of the shared library, and shows a thread that publishes and a generator of its messages.
"""
import ctypes
import sys
import threading
import time

__version__ = "0.2.0"

DONE, FRAME = 0, 1
MAY_PASS = (-1, -2, -3)
ROOM_TOO_SMALL = -7


class Fault(Exception):
    """A code below zero, as pechvang.h names it."""

    def __init__(self, code):
        super().__init__(f"code {code}")
        self.code = code


class Config(ctypes.Structure):
    _fields_ = [("term_length", ctypes.c_uint32), ("mtu", ctypes.c_uint32), ("initial_term_id", ctypes.c_int32), ("session", ctypes.c_int32),
                ("stream", ctypes.c_int32), ("consumers", ctypes.c_uint32), ("start", ctypes.c_uint64)]


class Subscription(ctypes.Structure):
    _fields_ = [("receiver", ctypes.c_int64), ("greatest", ctypes.c_size_t), ("session", ctypes.c_int32), ("stream", ctypes.c_int32),
                ("window", ctypes.c_uint32)]


class _Handle(ctypes.Structure):
    _fields_ = [("at", ctypes.c_void_p), ("is_open", ctypes.c_bool)]


class Pass:
    """What a handle holds; freed when it is collected, or by `free`."""

    def __init__(self, library):
        self.library = library
        self.handle = _Handle()

    def call(self, name, *words):
        code = getattr(self.library, name)(ctypes.byref(self.handle), *words)
        if code < 0:
            raise Fault(code)
        return code

    def number(self, name, *words):
        found = ctypes.c_uint64()
        self.call(name, *words, ctypes.byref(found))
        return found.value

    def free(self):
        self.library.pv_free(ctypes.byref(self.handle))

    def __del__(self):
        self.free()


class Publisher(Pass):
    def offer(self, message):
        """The position behind the message, or None where it may be accepted later."""
        try:
            return self.number("pv_offer", message, ctypes.c_size_t(len(message)))
        except Fault as fault:
            if fault.code in MAY_PASS:
                return None
            raise

    def claim(self, length):
        return self.number("pv_claim", ctypes.c_size_t(length))

    def write(self, offset, part):
        self.call("pv_claim_write", ctypes.c_size_t(offset), part, ctypes.c_size_t(len(part)))

    def commit(self):
        return self.number("pv_commit")

    def abort(self):
        return self.number("pv_abort")

    def share(self):
        return self.number("pv_share")


class Reader(Pass):
    def messages(self, greatest=1 << 21, wait=lambda: time.sleep(0)):
        """Whole messages, for good, from where the reader stands on, which has found no frame yet and is spent then; `wait` is
        called where there is none yet, and ends it by an answer that is true."""
        return Messages(self, greatest).each(wait)


class Messages(Pass):
    """Whole messages, in place of a reader's frames, each of at most so many bytes."""

    def __init__(self, reader, greatest=1 << 21):
        super().__init__(reader.library)
        self.room = ctypes.create_string_buffer(2048)
        reader.call("pv_open_messages", ctypes.c_size_t(greatest), ctypes.byref(self.handle))

    def next(self):
        """The next message, or None where none is whole yet. After a fault of code -13 or -19 it goes on behind the lost one."""
        length = ctypes.c_size_t()
        try:
            if self.call("pv_next_message", self.room, ctypes.c_size_t(len(self.room)), ctypes.byref(length)) == DONE:
                return None
        except Fault as fault:
            if fault.code != ROOM_TOO_SMALL:
                raise
            self.room = ctypes.create_string_buffer(length.value)
            return self.next()
        return ctypes.string_at(self.room, length.value)

    def each(self, wait):
        while True:
            message = self.next()
            if message is not None:
                yield message
            elif wait():
                return

    def position(self):
        """Behind all that was given."""
        return self.number("pv_messages_position")


class Keeper(Pass):
    def clean_and_limit(self):
        return self.number("pv_clean_and_limit")

    def set_connected(self, connected):
        self.call("pv_set_connected", ctypes.c_bool(connected))

    def set_closed(self):
        self.call("pv_set_closed")

    def join(self):
        reader = Reader(self.library)
        self.call("pv_join", ctypes.byref(reader.handle))
        return reader


class Core(Pass):
    """Moments in, nanoseconds of a clock that doesn't go back, and datagrams out: all have to be taken before the next moment."""

    def tick(self, now):
        self.call("pv_tick", ctypes.c_uint64(now))

    def datagrams(self, room=65504):
        bytes_, length = ctypes.create_string_buffer(room), ctypes.c_size_t()
        while self.call("pv_next_datagram", bytes_, ctypes.c_size_t(room), ctypes.byref(length)) == FRAME:
            yield bytes_.raw[:length.value]


class Subscriber(Core):
    def __init__(self, library, config):
        super().__init__(library)
        self.room = ctypes.create_string_buffer(max(config.greatest, 1))
        code = library.pv_open_subscriber(ctypes.byref(config), ctypes.byref(self.handle))
        if code < 0:
            raise Fault(code)

    def receive(self, datagram, now):
        """What became of each frame, as pechvang.h names it."""
        outcomes, frames = (ctypes.c_int32 * 2048)(), ctypes.c_size_t()
        self.call("pv_receive", datagram, ctypes.c_size_t(len(datagram)), ctypes.c_uint64(now), outcomes, ctypes.c_size_t(2048), ctypes.byref(frames))
        return outcomes[:frames.value]

    def poll(self):
        """The next message, or None where none is whole yet."""
        length = ctypes.c_size_t()
        if self.call("pv_poll", self.room, ctypes.c_size_t(len(self.room)), ctypes.byref(length)) == DONE:
            return None
        return self.room.raw[:length.value]


class Sender(Core):
    def __init__(self, reader, group=0):
        super().__init__(reader.library)
        reader.call("pv_open_sender", ctypes.c_uint32(group), ctypes.byref(self.handle))

    def hear(self, datagram, now):
        outcome = ctypes.c_int32()
        self.call("pv_hear", datagram, ctypes.c_size_t(len(datagram)), ctypes.c_uint64(now), ctypes.byref(outcome))
        return outcome.value


class Log(Pass):
    def __init__(self, path, config=Config(1 << 16, 1408, 7, 1, 1001, 1, 0)):
        super().__init__(ctypes.CDLL(path))
        code = self.library.pv_open(ctypes.byref(config), ctypes.byref(self.handle))
        if code < 0:
            raise Fault(code)

    def take(self, name, taken):
        self.call(name, ctypes.byref(taken.handle))
        return taken

    def publisher(self):
        return self.take("pv_take_publisher", Publisher(self.library))

    def reader(self):
        return self.take("pv_take_reader", Reader(self.library))

    def keeper(self):
        return self.take("pv_take_keeper", Keeper(self.library))


def carry(path):
    """A sender and a subscriber, with a network between them that loses each seventh datagram."""
    log = Log(path)
    publisher, keeper, sender = log.publisher(), log.keeper(), Sender(log.reader())
    subscriber = Subscriber(log.library, Subscription(3, 8192, 1, 1001, 32768))
    keeper.set_connected(True)
    wanted = [bytes([k % 251]) * (k % 5000) for k in range(300)]
    found, offered, sent = [], 0, 0
    for now in range(0, 60_000_000_000, 1_000_000):
        keeper.clean_and_limit()
        if offered < len(wanted) and publisher.offer(wanted[offered]) is not None:
            offered += 1
        sender.tick(now)
        for datagram in sender.datagrams():
            sent += 1
            if sent % 7:
                subscriber.receive(datagram, now)
        try:
            while (message := subscriber.poll()) is not None:
                found.append(message)
        except Fault as fault:
            assert fault.code == -12
        subscriber.tick(now)
        for reply in subscriber.datagrams():
            sender.hear(reply, now)
            for datagram in sender.datagrams():
                subscriber.receive(datagram, now)
        if len(found) == len(wanted):
            break
    assert found == wanted, "other messages are carried"
    print(f"{len(found)} carried by {sent} datagrams")


def main():
    carry(sys.argv[1])
    log = Log(sys.argv[1])
    publisher, reader, keeper = log.publisher(), log.reader(), log.keeper()
    log.free()
    keeper.set_connected(True)
    keeper.clean_and_limit()
    wanted = [bytes([k % 251]) * (k % 5000) for k in range(2000)]

    def publish():
        for k, message in enumerate(wanted):
            if k % 4 == 0 and len(message) <= 1376:
                while True:
                    try:
                        publisher.claim(len(message))
                        break
                    except Fault as fault:
                        if fault.code not in MAY_PASS:
                            raise
                        time.sleep(0)
                publisher.write(0, message)
                publisher.commit()
            else:
                while publisher.offer(message) is None:
                    time.sleep(0)

    thread = threading.Thread(target=publish)
    thread.start()
    found = []
    for message in reader.messages(wait=lambda: keeper.clean_and_limit() < 0):
        found.append(message)
        if len(found) == len(wanted):
            break
    thread.join()
    assert found == wanted, "the messages are others"
    try:
        publisher.commit()
        raise AssertionError("a commit without a claim")
    except Fault as fault:
        assert fault.code == -9
    print(f"{len(found)} messages, {publisher.share()} bytes")


if __name__ == "__main__":
    main()
