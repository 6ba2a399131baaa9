"""A plan that comes in pieces, checked as it comes and stored nowhere."""

from __future__ import annotations

from threading import Lock
from typing import NamedTuple

from . import calls
from .numbers import ACCEPTED, refused
from .plan import Bytes


class Verdict(NamedTuple):
    """What a session says of a good plan: the bytes of its file, and the rows and the words of bodies that its table has."""

    length: int
    rows: int
    words: int


class Session:
    """A check of a plan whose bytes come in pieces. It keeps 328 bytes, however long the plan is.

    >>> session = Session()
    >>> while piece := link.recv(512):
    ...     session.feed(piece)
    >>> session.verdict()                                     # raises Refused
    Verdict(length=522, rows=8, words=178)

    However the plan is cut, the verdict is what `Plan.read` says of all its bytes. Several threads may use one session; each call is done
    before the next begins.
    """

    __slots__ = ("_session", "_lock")

    def __init__(self) -> None:
        """A session that was given no byte."""
        self._session = calls.SessionStruct()
        # a call lets other threads run, and none may use the struct meanwhile
        self._lock = Lock()
        self.open()

    def open(self) -> None:
        """Begins anew, as if no byte had been given."""
        with self._lock:
            calls.session_open(self._session)

    def feed(self, piece: Bytes) -> None:
        """Gives the next bytes of the plan, however many, none too. Nothing is refused here; after a verdict nothing changes either."""
        # bytes go through as they are; of anything else one copy is made, since another thread could change it
        lent = piece if type(piece) is bytes else memoryview(piece).tobytes()
        with self._lock:
            answer = calls.session_piece(self._session, lent)
        if answer.number != ACCEPTED:
            raise refused(answer.number, answer.offset)

    def verdict(self) -> Verdict:
        """The verdict on the bytes so far. Refused where they are not a whole drawing, with the offset of the field at fault.

        A verdict spends the session, a refusal too: asked again it is the same, until `open`. To ask before the end, ask a `copy`.
        """
        with self._lock:
            answer = calls.session_verdict(self._session)
        if answer.number != ACCEPTED:
            raise refused(answer.number, answer.offset)
        return Verdict(answer.offset, answer.rows, answer.words)

    def copy(self) -> Session:
        """A session that was given the same bytes, and goes on by itself."""
        other = Session()
        with self._lock:
            other._session = calls.SessionStruct.from_buffer_copy(self._session)
        return other

    __copy__ = copy

    def __repr__(self) -> str:
        return f"<Session that counts {self._session.bytes} bytes>"
