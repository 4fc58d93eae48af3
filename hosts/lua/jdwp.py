"""A debugger's end of the Java Debug Wire Protocol, as far as the tests need it."""
import collections
import socket
import struct
import time

HANDSHAKE = b"JDWP-Handshake"
PATIENCE = 60  # seconds
Frame = collections.namedtuple("Frame", "frame tag class_ method location")
Variable = collections.namedtuple("Variable", "first name signature generic count slot")


class Error(Exception):
    """A reply that has an error, which is args[0]."""


class Closed(Exception):
    """The other end has closed the connection."""


class Data:
    """The data of a packet, read from its begin on."""

    def __init__(self, data):
        self.data, self.at = data, 0

    def take(self, count):
        self.at += count
        if self.at > len(self.data):
            raise ValueError(f"{len(self.data)} bytes are too few")
        return self.data[self.at - count:self.at]

    def number(self, size):
        return int.from_bytes(self.take(size), "big")

    def text(self):
        return self.take(self.number(4)).decode()

    def items(self, read):
        return [read() for _ in range(self.number(4))]

    def all(self, value):
        """The value, if it was all there is."""
        if self.at != len(self.data):
            raise ValueError(f"{len(self.data) - self.at} bytes are left")
        return value


def ids(*numbers):
    return b"".join(struct.pack(">Q", number) for number in numbers)


class Wire:
    """A connection, and the requests of a debugger. Events that come between replies are kept."""

    def __init__(self, port, handshake=HANDSHAKE):
        self.socket = socket.create_connection(("127.0.0.1", port), timeout=PATIENCE)
        self.last, self.events = 0, []
        self.socket.sendall(handshake)
        if handshake == HANDSHAKE and self.take(len(HANDSHAKE)) != HANDSHAKE:
            raise ValueError("no handshake")

    def __enter__(self):
        return self

    def __exit__(self, *_):
        self.socket.close()

    def take(self, count):
        taken = b""
        while len(taken) < count:
            try:
                more = self.socket.recv(count - len(taken))
            except ConnectionResetError:
                more = b""
            if not more:
                raise Closed()
            taken += more
        return taken

    def is_closed(self):
        """Whether the other end closes, without a byte before."""
        try:
            self.take(1)
        except Closed:
            return True
        return False

    def send(self, command_set, command, data=b"", length=None, flags=0):
        """Sends a request, and gives its id. `length` is told in place of the right one."""
        self.last += 1
        length = 11 + len(data) if length is None else length
        self.socket.sendall(struct.pack(">IIBBB", length, self.last, flags, command_set, command) + data)
        return self.last

    def read(self):
        """Reads a packet. Gives the id and the error of a reply, or None twice for an event, and the data."""
        length, number, flags, code = struct.unpack(">IIBH", self.take(11))
        data = self.take(length - 11)
        if flags & 0x80:
            return number, code, data
        self.events.append(Data(data))
        return None, None, data

    def reply(self, number):
        while True:
            replied, error, data = self.read()
            if replied is None:
                continue
            if replied != number:
                raise ValueError(f"a reply to {replied} comes before the one to {number}")
            if error:
                raise Error(error)
            return Data(data)

    def ask(self, command_set, command, data=b"", **more):
        return self.reply(self.send(command_set, command, data, **more))

    def error_of(self, command_set, command, data=b"", **more):
        """The error of the reply, 0 if it has none."""
        try:
            self.ask(command_set, command, data, **more)
        except Error as error:
            return error.args[0]
        return 0

    def version(self):
        data = self.ask(1, 1)
        return data.all((data.text(), data.number(4), data.number(4), data.text(), data.text()))

    def class_path(self):
        data = self.ask(1, 13)
        return data.all((data.text(), data.items(data.text), data.items(data.text)))

    def classes(self):
        """The ids of all classes, by signature."""
        found = collections.defaultdict(list)
        data = self.ask(1, 20)
        for _ in range(data.number(4)):
            data.number(1)
            number = data.number(8)
            found[data.text()].append(number)
            data.text()
            data.number(4)
        return data.all(dict(found))

    def methods(self, class_):
        """The names of a class's methods, by their ids, in the order in which they come."""
        found = {}
        data = self.ask(2, 15, ids(class_))
        for _ in range(data.number(4)):
            number = data.number(8)
            found[number] = data.text()
            data.text()
            data.text()
            data.number(4)
        return data.all(found)

    def source_file(self, class_):
        data = self.ask(2, 7, ids(class_))
        return data.all(data.text())

    def signature(self, class_):
        return self.ask(2, 13, ids(class_)).text()

    def threads(self, count=0):
        """The ids of the threads, by their names, once there are so many."""
        end = time.monotonic() + PATIENCE
        while True:
            data = self.ask(1, 4)
            found = data.all(data.items(lambda: data.number(8)))
            if len(found) >= count or time.monotonic() > end:
                return {self.thread_name(thread): thread for thread in found}
            time.sleep(0.01)

    def thread_name(self, thread):
        data = self.ask(11, 1, ids(thread))
        return data.all(data.text())

    def status(self, thread):
        """The state's number, and whether the thread is suspended."""
        data = self.ask(11, 4, ids(thread))
        return data.all((data.number(4), data.number(4)))

    def suspend(self, *thread):
        self.ask(11, 2, ids(*thread)) if thread else self.ask(1, 8)

    def resume(self, *thread):
        self.ask(11, 3, ids(*thread)) if thread else self.ask(1, 9)

    def frames(self, thread):
        data = self.ask(11, 6, ids(thread) + struct.pack(">ii", 0, -1))
        return data.all(data.items(lambda: Frame(*(data.number(size) for size in (8, 1, 8, 8, 8)))))

    def look(self, thread):
        """The stack of a thread that runs, once it has started."""
        end, found = time.monotonic() + PATIENCE, []
        while not found and time.monotonic() < end:
            self.suspend(thread)
            found = self.stack(thread) if self.status(thread)[1] else []
            self.resume(thread)
        return found

    def stack(self, thread):
        """The names of a suspended thread's frames as "class.method:location", newest first. No line is that of native code."""
        found = []
        for frame in self.frames(thread):
            name = self.signature(frame.class_)[1:-1].replace("/", ".")
            line = "" if frame.location >= 1 << 63 else f":{frame.location}"
            found.append(f"{name}.{self.methods(frame.class_)[frame.method]}{line}")
        return found

    def variables(self, class_, method):
        """The variables of a method, in the order in which they come."""
        data = self.ask(6, 5, ids(class_, method))
        data.number(4)
        return data.all(data.items(lambda: Variable(data.number(8), data.text(), data.text(), data.text(), data.number(4), data.number(4))))

    def text(self, number):
        data = self.ask(10, 1, ids(number))
        return data.all(data.text())

    def entries(self, number):
        """All entries of a table."""
        count = self.ask(13, 1, ids(number)).number(4)
        data = self.ask(13, 2, ids(number) + struct.pack(">ii", 0, count))
        data.number(1)
        found = data.all(data.items(lambda: (data.take(1), data.number(8))))
        return [self.text(text) for _, text in found]

    def value(self, data):
        """The next value. A text is a str, a table a list of its entries."""
        tag = data.take(1)
        if tag == b"Z":
            return data.number(1) == 1
        bits = data.take(8)
        if tag in b"JD":
            return struct.unpack(">q" if tag == b"J" else ">d", bits)[0]
        number = int.from_bytes(bits, "big")
        return {b"L": lambda _: None, b"s": self.text, b"[": self.entries}[tag](number)

    def values(self, thread, frame, slots):
        wanted = b"".join(struct.pack(">iB", slot, ord("L")) for slot in slots)
        data = self.ask(16, 1, ids(thread, frame) + struct.pack(">i", len(slots)) + wanted)
        return data.all(data.items(lambda: self.value(data)))

    def locals(self, thread, depth):
        """The visible variables of a suspended thread's frame, and their values. One that begins later hides those of its name."""
        frame, visible = self.frames(thread)[depth], {}
        for variable in sorted(self.variables(frame.class_, frame.method), key=lambda variable: variable.first, reverse=True):
            if variable.first <= frame.location < variable.first + variable.count:
                visible.setdefault(variable.name, variable.slot)
        return dict(zip(visible, self.values(thread, frame.frame, list(visible.values()))))
