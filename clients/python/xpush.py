"""A client of xpush: which subscriptions does a document match?

An Xpush runs the program as a process, and speaks to it by the lines of a feed.

>>> from xml.etree import ElementTree
>>> with Xpush() as engine:
...     dear = engine.add("/order[@total>1000]")
...     pens = engine.add("//item[@sku='A-1']")
...     order = ElementTree.fromstring("<order total='1250'><item sku='A-1'>Pen</item></order>")
...     first = engine.match(order)
...     engine.drop(pens)
...     second = engine.match(b"(order\\nAtotal 1250\\n)order\\n")
3
>>> first
Reply(version=2, ids=(1, 2))
>>> second
Reply(version=3, ids=(1,))

Each accepted change makes a new version, from 1 on, and a filter's id is the version that added it.
A document is matched with the filters that are live where it is sent.

Many documents go through without waiting for each one's answer:

>>> with Xpush() as engine:
...     number = engine.add("//b")
...     replies = [reply.ids for reply in engine.matches([b"(a\\n)a\\n", b"(b\\n)b\\n"])]
>>> replies
[(), (1,)]

What is refused is an exception, which says why and where:

>>> with Xpush() as engine:
...     engine.add("/order[")
Traceback (most recent call last):
    ...
xpush.FilterError: not-a-filter at byte 7
>>> with Xpush() as engine:
...     engine.match(b"(a\\n)b\\n")
Traceback (most recent call last):
    ...
xpush.DocumentError: not-here at line 2

A faulty document ends the run of the program. The client then starts it anew and makes the accepted
changes once more, in their order, so that ids and versions are what they were; what was sent behind
the faulty document is sent again. So an Xpush can be used on after each exception but EngineError.

This client is tested, and not proved as the program is. It needs Python alone, and was tried with 3.11.
An Xpush is for one thread.
"""
from __future__ import annotations

import os
import queue
import shutil
import subprocess
import threading
from collections import deque
from pathlib import Path
from typing import Any, Deque, Iterable, Iterator, List, Mapping, NamedTuple, Optional, Sequence, Tuple, Union

__all__ = ["Xpush", "Reply", "XpushError", "FilterError", "ChangeError", "DocumentError", "EngineError", "documents_of", "pyx_of"]

LONGEST_FILTER = 4_096
STATUSES = {1: "a refusal", 2: "usage", 3: "read fault", 4: "write fault", 5: "out of memory"}
ESCAPES = str.maketrans({"\\": "\\\\", "\n": "\\n", "\t": "\\t", "\r": "\\r"})
# a change that is refused and changes nothing: it makes a program that gathers documents answer them
PROMPT = b"~\n"
PROMPT_ANSWER = b"! drop unknown"


class Reply(NamedTuple):
    """The ids of the filters that a document matches, of those live at a version; they rise."""

    version: int
    ids: Tuple[int, ...]


class XpushError(Exception):
    """What an Xpush raises; 'kind' is the program's word for it."""

    kind: str = ""


class FilterError(XpushError):
    """A text is no filter. 'byte' is the first byte, from 0, of the token at fault, where there is one."""

    def __init__(self, kind: str, byte: Optional[int] = None) -> None:
        super().__init__(kind if byte is None else "%s at byte %d" % (kind, byte))
        self.kind, self.byte = kind, byte


class ChangeError(XpushError):
    """A change is refused: 'change' is add, drop or replace, 'kind' is unknown, too-large or no-versions.

    'size' is, for too-large, what the other live filters measure together.
    """

    def __init__(self, change: str, kind: str, size: Optional[int] = None) -> None:
        super().__init__("%s %s" % (change, kind) + ("" if size is None else ": the others measure %d" % size))
        self.change, self.kind, self.size = change, kind, size


class DocumentError(XpushError):
    """A document is faulty: 'line' is its first faulty line, from 1; for the kind truncated, how many there are."""

    def __init__(self, kind: str, line: int) -> None:
        super().__init__("%s at line %d" % (kind, line))
        self.kind, self.line = kind, line


class EngineError(XpushError):
    """The program has ended by itself: 'status' is its exit status, or minus the signal that ended it."""

    def __init__(self, status: int) -> None:
        self.kind = "signal %d" % -status if status < 0 else STATUSES.get(status, "ended")
        super().__init__("xpush ended with status %d (%s)" % (status, self.kind))
        self.status = status


Names = Mapping[str, str]
# a document: its PYX lines, or an Element or ElementTree of xml.etree (or of lxml)
Document = Union[bytes, Any]


class _Item:
    """Something that was sent, and its result once that is known: a value, or the exception that says why not."""

    def __init__(self, text: bytes, is_change: bool) -> None:
        self.text, self.is_change = text, is_change
        self.lines = text.count(b"\n")
        self.is_known = False
        self.result: Union[int, Reply, XpushError, None] = None

    def know(self, result: Union[int, Reply, XpushError]) -> None:
        self.is_known, self.result = True, result

    def value(self) -> Any:
        if isinstance(self.result, XpushError):
            raise self.result
        return self.result


class Xpush:
    """A running xpush.

    'program' is the file to run: else what the variable XPUSH names, else xpush on the path, else the
    launcher of the repository that this file stands in. 'words' are its command and the options of that.
    'prefixes' says which prefix stands for a namespace in filters, by the namespace's name, for
    documents that are trees: in these the prefixes that were written are gone, and xpush compares names
    as they are written. A prefix '' is none.
    """

    def __init__(
        self, program: Optional[Union[str, Path]] = None, words: Sequence[str] = ("serial",), prefixes: Optional[Names] = None
    ) -> None:
        self._command = [str(program or _program()), *words]
        self._gathers = words[0] != "serial"
        self._prefixes = dict(prefixes or {})
        self._accepted: List[bytes] = []  # the changes, from the first version on
        self._waiting: Deque[_Item] = deque()  # what was sent and is not answered yet
        self._prompted = 0  # how many of these a prompt stands behind
        self._start()

    def add(self, filter: str) -> int:
        """Adds a filter: its id. FilterError where the text is none, ChangeError where there is no room."""
        return self._ask(b"+" + _line(filter))

    def drop(self, id: int) -> int:
        """Drops the filter of an id: the new version. ChangeError where none is live under it."""
        return self._ask(b"~%d" % id)

    def replace(self, id: int, filter: str) -> int:
        """Puts another filter in the place of one, under its id: the new version. Errors are those of add and drop."""
        return self._ask(b"^%d " % id + _line(filter))

    def match(self, document: Document) -> Reply:
        """The filters that a document matches. DocumentError where it is not one document."""
        item = self._send_document(document)
        return self._wait(item).value()

    def matches(self, documents: Iterable[Document], in_flight: int = 256, faults: str = "raise") -> Iterator[Any]:
        """The replies to documents, in their order, with up to so many sent ahead of the one that is answered.

        With faults="give" the DocumentError of a faulty one comes in the place of its reply, and the
        others go on; else it is raised there.
        """
        if faults not in ("raise", "give"):
            raise ValueError("faults is 'raise' or 'give'")
        ahead: Deque[_Item] = deque()
        for document in documents:
            ahead.append(self._send_document(document))
            if len(ahead) >= in_flight:
                yield self._result(ahead.popleft(), faults)
        while ahead:
            yield self._result(ahead.popleft(), faults)

    def change(self, line: bytes) -> int:
        """Makes the change of a feed's line '+FILTER', '~ID' or '^ID FILTER', as add, drop and replace do."""
        if not line.startswith((b"+", b"~", b"^")) or b"\n" in line:
            raise ValueError("not the line of a change")
        filter = {b"+": line[1:], b"^": line.partition(b" ")[2]}.get(line[:1], b"")
        if len(filter) > LONGEST_FILTER:
            raise FilterError("too-long")
        return self._ask(line)

    def close(self) -> None:
        """Ends the program. It may be called again."""
        process = self._process
        if process.stdin and not process.stdin.closed:
            try:
                process.stdin.close()
            except OSError:
                pass
        try:
            process.wait(timeout=10)
        except subprocess.TimeoutExpired:
            process.kill()
            process.wait()
        self._reader.join()
        if process.stdout:
            process.stdout.close()

    def __enter__(self) -> "Xpush":
        return self

    def __exit__(self, *_: Any) -> None:
        self.close()

    def _start(self) -> None:
        # an interrupt at the terminal is for the caller, who ends the program by close
        self._process = subprocess.Popen(self._command, stdin=subprocess.PIPE, stdout=subprocess.PIPE, start_new_session=True)
        self._answers: "queue.SimpleQueue[Optional[bytes]]" = queue.SimpleQueue()
        # answers are read as they come, so that the program never waits for its reader while it is written to
        self._reader = threading.Thread(target=_read, args=(self._process.stdout, self._answers), daemon=True)
        self._reader.start()
        self._lines = 0  # of the feed, before the oldest item that waits

    def _restart(self) -> None:
        """Starts the program once more, at the version that was reached; what waits is sent again."""
        self.close()
        self._start()
        self._write(b"".join(line + b"\n" for line in self._accepted))
        for _ in self._accepted:
            self._answer()
        self._lines = len(self._accepted)
        self._prompted = 0
        for item in self._waiting:
            self._write(item.text)

    def _write(self, text: bytes) -> None:
        try:
            self._process.stdin.write(text)  # type: ignore[union-attr]
            self._process.stdin.flush()  # type: ignore[union-attr]
        except BrokenPipeError:
            pass  # it has ended, and what it wrote before says why

    def _answer(self) -> bytes:
        """The next line that the program writes."""
        line = self._answers.get()
        if line is None:
            self._answers.put(None)
            status = self._process.wait()
            error = EngineError(status)
            while self._waiting:
                self._waiting.popleft().know(error)
            raise error
        return line

    def _send(self, text: bytes, is_change: bool) -> _Item:
        item = _Item(text, is_change)
        self._waiting.append(item)
        self._write(text)
        return item

    def _send_document(self, document: Document) -> _Item:
        text = document if isinstance(document, bytes) else pyx_of(document, self._prefixes)
        if is_one_document(text):
            return self._send(text if text.endswith(b"\n") else text + b"\n", False)
        item = _Item(text, False)
        item.know(self._judged(text))
        return item

    def _judged(self, text: bytes) -> XpushError:
        """What is wrong with a text that is not sent, as it is not one document: 'match' reads it by itself."""
        done = subprocess.run([self._command[0], "match", "/*"], input=text, stdout=subprocess.PIPE)
        words = done.stdout.decode().split()
        return DocumentError(words[3], int(words[2])) if words[:2] == ["!", "line"] else EngineError(done.returncode)

    def _ask(self, line: bytes) -> int:
        return self._wait(self._send(line + b"\n", True)).value()

    def _result(self, item: _Item, faults: str) -> Any:
        self._wait(item)
        return item.result if faults == "give" and isinstance(item.result, DocumentError) else item.value()

    def _wait(self, item: _Item) -> _Item:
        """Takes answers until that of this item is there."""
        while not item.is_known:
            if self._gathers and self._prompted == 0:
                self._prompted = len(self._waiting)
                self._write(PROMPT)
            self._take(self._answer())
        return item

    def _take(self, line: bytes) -> None:
        """Gives an answer to the item that has waited longest."""
        words = line.decode().split(" ")
        if words[:2] == ["!", "line"]:
            self._fault(int(words[2]), words[3])
            return
        item = self._waiting.popleft()
        self._lines += item.lines
        result = _read_answer(line, words)
        item.know(result)
        if item.is_change and isinstance(result, int):
            self._accepted.append(item.text[:-1])
        if self._prompted:
            self._prompted -= 1
            if self._prompted == 0:
                self._take_prompt()

    def _take_prompt(self) -> None:
        answer = self._answer()
        self._lines += 1
        if answer != PROMPT_ANSWER:
            self._process.kill()
            raise EngineError(self._process.wait())

    def _fault(self, line: int, kind: str) -> None:
        """The program found a faulty line, and has ended: the oldest item is at fault, unless the feed was too long."""
        if kind != "feed-long":
            item = self._waiting.popleft()
            item.know(DocumentError(kind, line - self._lines))
        self._restart()


def documents_of(lines: Iterable[bytes]) -> Iterator[bytes]:
    """The documents of a stream of PYX lines, as a file of bytes gives them: each ends with the line that closes its root.

    What stands between documents is left out. The lines that are left at the end, if the last document
    is cut short, are given too; xpush then says what is wrong with them.
    """
    document: List[bytes] = []
    depth = 0
    for line in lines:
        if line.startswith(b"("):
            depth += 1
        if depth > 0:
            document.append(line)
        if line.startswith(b")") and depth > 0:
            depth -= 1
            if depth == 0:
                yield b"".join(document)
                document = []
    if document:
        yield b"".join(document)


def is_one_document(pyx: bytes) -> bool:
    """Whether PYX lines are one document and no change, as far as the first bytes of lines show.

    If so, the program answers them by one line, whatever else they hold.
    """
    depth, has_root = 0, False
    for line in pyx.split(b"\n"):
        first = line[:1]
        if first == b"(":
            if depth == 0 and has_root:
                return False
            depth, has_root = depth + 1, True
        elif first == b")" and depth > 0:
            depth -= 1
        elif depth == 0 and not _is_outside(line):
            return False
    return has_root and depth == 0


def _is_outside(line: bytes) -> bool:
    """Whether a line may stand outside the root: nothing, a line that is passed by, or white space."""
    first = line[:1]
    if first == b"-":
        return not line[1:].replace(b"\\n", b"").replace(b"\\t", b"").replace(b"\\r", b"").strip(b" \t\r")
    return line in (b"", b"\r") or first == b"?" or (first.isalpha() and first != b"A")


def pyx_of(tree: Any, prefixes: Optional[Names] = None) -> bytes:
    """The PYX lines of an Element or ElementTree.

    Comments and processing instructions end a text, as in XPath. A name '{URI}NAME' is written with the
    prefix that 'prefixes' has for the namespace; ValueError where it has none.
    """
    root = tree.getroot() if hasattr(tree, "getroot") else tree
    lines: List[str] = []
    open_elements: List[Tuple[Any, Optional[Iterator[Any]]]] = [(root, None)]
    while open_elements:
        element, children = open_elements.pop()
        if children is None:
            if callable(element.tag):  # a comment or a processing instruction
                lines.append("?")
            else:
                _open(element, prefixes or {}, lines)
                open_elements.append((element, iter(element)))
                continue
        else:
            child = next(children, None)
            if child is not None:
                open_elements += [(element, children), (child, None)]
                continue
            lines.append(")" + _name(element.tag, prefixes or {}))
        if element.tail and open_elements:
            lines.append("-" + element.tail.translate(ESCAPES))
    return ("\n".join(lines) + "\n").encode()


def _open(element: Any, prefixes: Names, lines: List[str]) -> None:
    lines.append("(" + _name(element.tag, prefixes))
    lines.extend("A%s %s" % (_name(name, prefixes), value.translate(ESCAPES)) for name, value in element.attrib.items())
    if element.text:
        lines.append("-" + element.text.translate(ESCAPES))


def _name(name: str, prefixes: Names) -> str:
    """A name as it is written."""
    if not name.startswith("{"):
        return name
    namespace, _, local = name[1:].partition("}")
    if namespace not in prefixes:
        raise ValueError("no prefix is given for the namespace '%s'" % namespace)
    return "%s:%s" % (prefixes[namespace], local) if prefixes[namespace] else local


def _line(filter: str) -> bytes:
    text = filter.encode()
    if b"\n" in text:
        raise ValueError("a filter has one line here")
    if len(text) > LONGEST_FILTER:
        raise FilterError("too-long")
    return text


def _read_answer(line: bytes, words: List[str]) -> Union[int, Reply, XpushError]:
    """What an answer says of the item that it is for."""
    if words[0] == "!":
        number = int(words[3]) if len(words) > 3 else None
        return FilterError(words[2], number) if words[1] == "filter" else ChangeError(words[1], words[2], number)
    if words[0].endswith(":"):
        return Reply(int(words[0][:-1]), tuple(map(int, words[1:])))
    return int(words[-1].lstrip("+"))


def _read(source: Any, answers: "queue.SimpleQueue[Optional[bytes]]") -> None:
    for line in source:
        answers.put(line.rstrip(b"\n"))
    answers.put(None)


def _program() -> str:
    """The xpush to run, where none is named."""
    beside = Path(__file__).resolve().parent.parent.parent / "xpush"
    found = os.environ.get("XPUSH") or shutil.which("xpush") or (str(beside) if beside.exists() else None)
    if found is None:
        raise FileNotFoundError("no xpush: name it, or set XPUSH, or put it on the path")
    return found
