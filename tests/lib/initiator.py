"""Initiators of iSCSI at a portal: a connection, one whose answers are compared, and a session whose every answer is looked at.

RFC 7143 has the PDUs. A wrong answer is an `AssertionError` with the PDUs that went before it, in hexadecimal.
"""
import collections
import socket
import struct
import time
import typing

import scsi
from compare import Wrong, same
from pdus import (
    ASYNC, COMMAND, DATA_IN, DATA_OUT, DRIVE, FINAL, HAS_STATUS, IMMEDIATE, LOGGED_IN, LOGGED_OUT, LOGOUT, MANAGE, MANAGED, NEITHER,
    NONE, NOP_IN, NOP_OUT, OUT_OF_RESOURCES, R2T, READS, REJECT, RESPONSE, SESSION, TARGET, TO_FULL, UNIT_RESET, WRITES, at_once, data_out,
    login, logout, manage, pdu, ready, text_of, unit, words_of, write)
from term import patience

GOOD, CHECK_CONDITION = 0x00, 0x02
# The initiator's part of the identifier of a session.
ISID = "800000000001"
KEYS = {
    "HeaderDigest": "None", "DataDigest": "None", "InitialR2T": "No", "ImmediateData": "Yes", "MaxConnections": "1",
    "MaxRecvDataSegmentLength": "8192", "MaxBurstLength": "16384", "FirstBurstLength": "4096", "MaxOutstandingR2T": "1",
    "DataPDUInOrder": "Yes", "DataSequenceInOrder": "Yes", "DefaultTime2Wait": "2", "DefaultTime2Retain": "0", "ErrorRecoveryLevel": "0"}
SEGMENT, BURST, FIRST_BURST = 8192, 16384, 4096
# Where a portal is: an address and a port.
Place = tuple[str, int]


def names_of(name: str, target: str = TARGET.decode()) -> bytes:
    """The text by which an initiator asks for a session with a target."""
    return text_of(f"InitiatorName={name}", f"TargetName={target}", "SessionType=Normal")


def keys_of(keys: dict[str, str]) -> bytes:
    return text_of(*(f"{key}={value}" for key, value in keys.items()))


class Answer(typing.NamedTuple):
    """A PDU of the target: its header and its data."""

    head: bytes
    data: bytes

    @property
    def opcode(self) -> int:
        return self.head[0] & 0x3F

    @property
    def flags(self) -> int:
        return self.head[1]

    @property
    def tag(self) -> int:
        return self.word(16)

    @property
    def tsih(self) -> int:
        """Of a Login Response the number of the session."""
        return int.from_bytes(self.head[14:16], "big")

    @property
    def login_status(self) -> int:
        """Of a Login Response Status-Class and Status-Detail."""
        return self.word(36) >> 16

    def word(self, place: int) -> int:
        return struct.unpack_from(">I", self.head, place)[0]


class Ended(Exception):
    """The server closed the connection."""


class Wire:
    """A connection, and what went over it last."""

    def __init__(self, place: Place, source: str | None = None):
        """`source` is the address that it comes from, where that is to be another than the usual."""
        self.connection = socket.create_connection(place, timeout=patience(), source_address=(source, 0) if source else None)
        self.connection.setsockopt(socket.IPPROTO_TCP, socket.TCP_NODELAY, 1)
        self.seen: collections.deque[str] = collections.deque(maxlen=12)
        self.is_cut = False

    def __enter__(self) -> typing.Self:
        return self

    def __exit__(self, *_) -> None:
        self.connection.close()

    def send(self, *pdus: bytes) -> None:
        for each in pdus:
            self.seen.append(f"> {each[:48].hex()} {each[48:].hex()[:128]}")
        try:
            self.connection.sendall(b"".join(pdus))
        except ConnectionError:
            self.is_cut = True  # the end is seen where an answer is read

    def exactly(self, count: int) -> bytes:
        read = bytearray()
        while len(read) < count:
            try:
                piece = self.connection.recv(count - len(read))
            except ConnectionError:
                piece = b""
            except TimeoutError:
                self.wrong("no answer came")
            if not piece:
                raise Ended
            read += piece
        return bytes(read)

    def receive(self) -> Answer:
        head = self.exactly(48)
        length = int.from_bytes(head[5:8], "big")
        data = self.exactly(head[4] * 4 + length + -length % 4)
        self.seen.append(f"< {head.hex()} {data.hex()[:128]}")
        self.check(head[4] == 0 and not any(data[length:]), "an additional header segment, or padding that isn't zero")
        return Answer(head, data[:length])

    def wrong(self, what: str) -> typing.NoReturn:
        raise AssertionError("\n".join([what, *self.seen]))

    def check(self, is_right: object, what: str) -> None:
        if not is_right:
            self.wrong(what)

    def await_end(self) -> None:
        """Reads until the server closes."""
        try:
            while True:
                self.receive()
        except Ended:
            pass

    def half_close(self) -> None:
        try:
            self.connection.shutdown(socket.SHUT_WR)
        except OSError:
            pass

    def reset(self) -> None:
        """Closes without the usual end."""
        self.connection.setsockopt(socket.SOL_SOCKET, socket.SO_LINGER, struct.pack("ii", 1, 0))
        self.connection.close()


# What an answer begins with: its opcode, its flags, its response and its status.
LET_IN, PROVED = "23870000", "23830000"
CHECKED, DONE, RESERVED = "21800002", "21800000", "21800018"
ASKED_FOR_DATA, COMPLETED, PING, LET_GO, ASKED_TO_LEAVE = "31800000", "22800000", "20800000", "26800000", "32800000"


class Initiator(Wire):
    """A connection on which each request is written out, and whose answers are compared: byte for byte, or by how they begin."""

    def __init__(self, place: Place, name: str = "", source: str | None = None):
        super().__init__(place, source)
        self.name = name
        # The number of the next command.
        self.number = 1
        # Which of the connections that the server accepted it is, where that is known.
        self.accepted = 0
        # The session's, where one has begun.
        self.tsih = 0
        self.last = Answer(b"", b"")

    # Answers.

    def gets_any(self, wanted: str = "one") -> Answer:
        """The next answer, which is compared then."""
        try:
            self.last = self.receive()
        except Ended:
            raise Wrong(f"what {self.name or 'the initiator'} is answered", "the end", wanted) from None
        return self.last

    def gets(self, wanted: bytes, what: str) -> None:
        """Compares the next answer."""
        self.gets_any(f"{what}, {wanted[:48].hex()}")
        self.compares(wanted, what)

    def compares(self, wanted: bytes, what: str) -> None:
        """Compares the answer that came last. Which number a session has that begins is the target's to say, but it isn't 0."""
        head = self.last.head
        if head[0] == LOGGED_IN and head[1] & 0x83 == 0x83 and head[36] == 0 and wanted[15] == SESSION:
            self.tsih = self.last.tsih
            head = head[:14] + bytes([0, SESSION if self.tsih else 0]) + head[16:]
        same(f"the header of {what}", head.hex(), wanted[:48].hex())
        same(f"the data of {what}", self.last.data, wanted[48:][:int.from_bytes(wanted[5:8], "big")])

    def reads(self, start: str) -> Answer:
        """Compares how the next answer begins."""
        head = self.gets_any(start).head
        same(f"how what {self.name} is answered begins, of {head.hex()}", head[:4].hex(), start)
        return self.last

    def is_left(self, may_be_asked: bool = False) -> None:
        """Reads the end, and nothing before it. Where the server ends, an idle session may just have come to ask for a logout."""
        try:
            answer = self.receive()
            while may_be_asked and answer.head[:4].hex() == ASKED_TO_LEAVE:
                answer = self.receive()
        except Ended:
            return
        raise Wrong(f"what comes to {self.name or 'the initiator'} at last", answer.head.hex(), "the end")

    # Requests.

    def next_number(self) -> int:
        """The number of a command, which is its tag too."""
        self.number += 1
        return self.number - 1

    def full_name(self) -> str:
        """Its own name, or one of the examples."""
        return self.name if "." in self.name else f"iqn.2026-11.example:{self.name}"

    def ask_in(self, target: str = TARGET.decode(), isid: str = ISID, tsih: int = 0) -> None:
        """Asks for a session with a target."""
        self.send(login(TO_FULL, names_of(self.full_name(), target), self.number, tsih, cid=0, isid=isid))

    def log_in(self, target: str = TARGET.decode()) -> None:
        self.ask_in(target)
        self.reads(LET_IN)

    def ask(self, start: str) -> None:
        """TEST UNIT READY to the drive."""
        number = self.next_number()
        self.send(ready(number, number))
        self.reads(start)

    def write(self, start: str, block: bytes, data: bytes = b"") -> tuple[int, int]:
        """WRITE(6) of a block to the drive, with these of its data. Its tag, and that of what it is answered."""
        number = self.next_number()
        self.send(write(number, number, len(block), data))
        return number, self.reads(start).word(20)

    def send_data(self, tag: int, transfer: int, block: bytes) -> None:
        """The data of a write, which have no answer of their own."""
        self.send(data_out(tag, block, transfer))

    def reset_drive(self) -> None:
        """A LOGICAL UNIT RESET of the drive."""
        self.send(manage(UNIT_RESET, self.number, lun=DRIVE, tag=self.number))
        self.reads(COMPLETED)

    def log_out(self) -> None:
        self.send(logout(self.number, self.number, now=True, cid=0))
        self.reads(LET_GO)


class Outcome(typing.NamedTuple):
    """What a command came to. Of `residual` an overflow is above 0 and an underflow below."""

    status: int
    code: tuple[int, int, int] | None
    data: bytes
    residual: int
    rejects: list[int]


class Session(Wire):
    """A session in full feature. What it receives is checked as far as any answer can be."""

    def __init__(self, place: Place, name: str, isid: str = ISID, keys: dict[str, str] | None = None, number: int = 0):
        super().__init__(place)
        self.number = number
        self.tag = 0x100
        self.asked_to_leave = False
        self.send(login(TO_FULL, names_of(name) + keys_of(KEYS if keys is None else keys), number, cid=0, isid=isid))
        answer = super().receive()
        self.check(answer.opcode == LOGGED_IN, "no Login Response")
        self.status = answer.login_status
        self.status_number = answer.word(24) + 1
        self.check(self.status or (answer.flags == TO_FULL and answer.tsih), "a login that ends nowhere")

    def receive(self) -> Answer:
        """The next answer but the target's own pings, which are answered."""
        end = time.monotonic() + patience()
        while True:
            answer = super().receive()
            self.check(time.monotonic() < end, "pings come, but no answer")
            is_ping = answer.opcode == NOP_IN and answer.tag == NONE
            self.check_numbers(answer, is_ping)
            if answer.opcode == ASYNC:
                self.check(answer.head[36] == 1, "an event that isn't a wish for logout")
                self.asked_to_leave = True
            elif is_ping:
                words = (answer.word(20), self.number, self.status_number & NONE)
                self.send(pdu(NOP_OUT | IMMEDIATE, FINAL, answer.head[8:16].hex(), NONE, words))
            else:
                return answer

    def check_numbers(self, answer: Answer, is_ping: bool) -> None:
        """Checks StatSN, ExpCmdSN and MaxCmdSN."""
        uses_number = answer.opcode not in (R2T, DATA_IN) or (answer.opcode == DATA_IN and answer.flags & HAS_STATUS)
        if uses_number or answer.opcode == R2T:
            self.check(answer.word(24) == self.status_number & NONE, f"StatSN isn't {self.status_number & NONE:08x}")
        if uses_number and not is_ping:
            self.status_number += 1
        room = (answer.word(32) - answer.word(28)) & NONE
        self.check((answer.word(28) - self.number - 1) & NONE >= 1 << 31, "ExpCmdSN is beyond what was sent")
        self.check(room <= 31 or room == NONE, "MaxCmdSN isn't at most 31 above ExpCmdSN")

    def words(self, word: int, is_immediate: bool = False) -> tuple[int, int, int]:
        """The words from byte 20 on: one, CmdSN and ExpStatSN. The CmdSN is used up where the request isn't immediate."""
        made = (word, self.number, self.status_number & NONE)
        if not is_immediate:
            self.number = (self.number + 1) & NONE
        return made

    def next_tag(self) -> int:
        self.tag += 1
        return self.tag

    def command(
            self, lun: int, cdb: bytes, flags: int = NEITHER, length: int = 0, data: bytes = b"", is_final: bool = True,
            is_immediate: bool = False, extra: bytes = b"", field: str | None = None) -> int:
        """Sends a command, and gives its tag."""
        tag, words = self.next_tag(), (*self.words(length, is_immediate), *words_of(cdb))
        place = unit(lun) if field is None else field
        self.send(pdu(at_once(COMMAND, is_immediate), flags | (FINAL if is_final else 0), place, tag, words, data, extra=extra))
        return tag

    def data_out(self, tag: int, offset: int, data: bytes, transfer_tag: int = NONE, is_final: bool = True, number: int = 0) -> None:
        words = (transfer_tag, 0, self.status_number & NONE, 0, number, offset)
        self.send(pdu(DATA_OUT, FINAL if is_final else 0, "", tag, words, data))

    def asked_for(self, tag: int) -> tuple[int, int, int]:
        """The next answer, which asks for data: its transfer tag, offset and length."""
        answer = self.receive()
        self.check(answer.opcode == R2T and answer.tag == tag, "no R2T")
        self.check(answer.flags == FINAL and answer.word(20) != NONE, "an R2T without F, or without a tag")
        return answer.word(20), answer.word(40), answer.word(44)

    def outcome(self, tag: int, block: bytes = b"") -> Outcome:
        """What a command comes to. Data of the block that are asked for are sent."""
        data, rejects, count, requests, sent = bytearray(), [], 0, 0, None
        while True:
            answer = self.receive()
            if answer.opcode == REJECT:
                rejects.append(answer.head[2])
                continue
            self.check(answer.tag == tag, "an answer to something else")
            if answer.opcode == R2T:
                self.check(answer.word(36) == requests and sent in (None, answer.word(40)), "an R2T out of its order")
                requests, sent = requests + 1, self.send_asked(tag, answer, block)
            elif answer.opcode == DATA_IN:
                self.check_data(answer, len(data), count)
                data += answer.data
                count += 1
                if answer.flags & HAS_STATUS:
                    return Outcome(answer.head[3], None, bytes(data), self.residual(answer), rejects)
            else:
                return self.ended(answer, bytes(data), count, rejects)

    def send_asked(self, tag: int, answer: Answer, block: bytes) -> int:
        """Sends the data of a block that an R2T asks for, and gives where they end."""
        offset, length = answer.word(40), answer.word(44)
        self.check(length, "an R2T for nothing")
        for number, at in enumerate(range(offset, offset + length, SEGMENT)):
            end = min(at + SEGMENT, offset + length)
            self.data_out(tag, at, block[at:end], answer.word(20), end == offset + length, number)
        return offset + length

    def check_data(self, answer: Answer, at: int, count: int) -> None:
        """Checks Data-In that come after so many bytes and so many others."""
        size = at + len(answer.data)
        self.check(answer.word(36) == count and answer.word(40) == at, "Data-In out of its order")
        self.check(0 < len(answer.data) <= SEGMENT and size - 1 - (size - 1) % BURST <= at, "Data-In beyond its length or burst")
        is_end = bool(answer.flags & FINAL)
        if answer.flags & HAS_STATUS:
            self.check(is_end, "S without F")
        else:
            self.check(is_end == (size % BURST == 0) or len(answer.data) < SEGMENT, "F in the midst of a burst, or none at its end")

    def ended(self, answer: Answer, data: bytes, count: int, rejects: list[int]) -> Outcome:
        """The outcome by a SCSI Response."""
        self.check(answer.opcode == RESPONSE and answer.flags & FINAL, "neither data nor status")
        self.check(answer.word(36) == count or not data, "ExpDataSN isn't how many Data-In came")
        self.check(answer.head[2] == 0, "not completed at the target")
        code = None
        if answer.head[3] == CHECK_CONDITION:
            self.check(len(answer.data) == 20 and answer.data[:2] == b"\0\x12", "sense data of another length")
            code = (answer.data[4] & 0x0F, answer.data[14], answer.data[15])
        else:
            self.check(not answer.data, "sense data without CHECK CONDITION")
        return Outcome(answer.head[3], code, data, self.residual(answer), rejects)

    @staticmethod
    def residual(answer: Answer) -> int:
        count = answer.word(44)
        return {0: 0, 4: count, 2: -count}[answer.flags & 6]

    def ask(self, lun: int, cdb: bytes, length: int = 0, block: bytes | None = None) -> Outcome:
        """A whole command: with a block it writes, with a length alone it reads."""
        if block is None:
            return self.outcome(self.command(lun, cdb, READS if length else NEITHER, length))
        return self.outcome(self.command(lun, cdb, WRITES, len(block), block[:FIRST_BURST]), block)

    def manage(self, function: int, lun: int = 0, tag: int = NONE) -> int:
        """The response to a task management function."""
        self.send(pdu(MANAGE | IMMEDIATE, FINAL | function, unit(lun), self.next_tag(), self.words(tag, True)))
        answer = self.receive()
        self.check(answer.opcode == MANAGED and answer.tag == self.tag, "no answer to task management")
        return answer.head[2]

    def log_out(self, reason: int = 0) -> int:
        self.send(pdu(LOGOUT | IMMEDIATE, FINAL | reason, "", self.next_tag(), self.words(0, True)))
        answer = self.receive()
        self.check(answer.opcode == LOGGED_OUT and answer.tag == self.tag, "no answer to a logout")
        return answer.head[2]

    def expect(self, got: object, wanted: object) -> None:
        self.check(got == wanted, f"{got} isn't {wanted}")

    def is_alive(self) -> bool:
        """Whether the session goes on: a command of it is answered."""
        for _ in range(4):
            if self.ask(scsi.CHANGER, scsi.TEST_UNIT_READY).status == GOOD:
                return True
        return False


def let_in(place: Place, name: str, **more: typing.Any) -> Session:
    """A session of a host, whose session before, by another ISID, may still be ending."""
    end = time.monotonic() + patience()
    while (session := Session(place, name, **more)).status == OUT_OF_RESOURCES and time.monotonic() < end:
        session.connection.close()
        time.sleep(0.05)
    session.check(session.status == 0, f"{name} isn't let in: {session.status:04x}h")
    return session
