"""A client of `tbhost serve`: one class, one method for each message and each query, of the standard library alone.

    from auction_client import Client, Refused

    with Client("https://auction.example", open("dealer1.key").read().strip(), "dealer1.numbers") as house:
        accepted = house.bid("dec", "fund1", "4.310", 300_000_000)
        try:
            house.cancel("dec", accepted.number)
        except Refused as refusal:
            print(refusal.name, refusal.values)

A message gets its number from the client. It is written to the file of numbers, and synced, before it is sent, and is sent again
under the same number until the host gives a verdict. The host enters a message once, however often it comes, so a lost reply, a
killed host and a killed client cost nothing. It needs Python 3.8 on a system that has `fcntl`.

The logger `auction_client` has each verdict as INFO and each try without one as WARNING, with its cause and the pause that follows.
It has no key and no member of a message but its kind and number.
"""

from __future__ import annotations

import dataclasses
import datetime
import errno
import fcntl
import http.client
import json
import logging
import os
import random
import re
import socket
import ssl
import threading
import time
import urllib.parse
from decimal import Decimal
from typing import Any, BinaryIO, Callable, Dict, Iterable, List, Optional, Sequence, Tuple, Type, TypeVar, Union, cast

__version__ = "0.1.0"
__all__ = [
    "Accepted", "AuctionError", "Award", "BadReply", "Bid", "Client", "Day", "Holding", "Minute", "NumbersInUse", "Rate",
    "Redemption", "Refused", "Results", "Terms", "Unanswered", "Verdict",
]

T = TypeVar("T")
_log = logging.getLogger("auction_client")

#: A day: a `date`, or a text `YYYY-MM-DD`.
Day = Union[datetime.date, str]
#: A minute of the day, Eastern time: a `time`, or a text `HH:MM`.
Minute = Union[datetime.time, str]
#: A discount rate in percent, in steps of 0.005: a `Decimal`, or a text such as "4.310". A `float` is refused.
Rate = Union[Decimal, str]

# The replies that say nothing of the message. All others without a verdict say that the request isn't one that the host serves.
_SEND_AGAIN = {408, 429, 500, 502, 503, 504, 507}
_FIRST_PAUSE, _LONGEST_PAUSE = 0.05, 2.0
# The most bids of one write: the host keeps so many in two syncs of its disk, in place of two for each.
_AT_ONCE = 64


class AuctionError(Exception):
    """What the client raises of its own."""


class Refused(AuctionError):
    """The host refused the message or the query: nothing was entered.

    number: the refusal's number, such as 17
    name:   its name, such as "Late"
    values: what is printed with it, as texts: ("3435314400", "3434542200"), the running moment and the closing
    status: the HTTP status behind it
    """

    def __init__(self, number: int, name: str, values: Tuple[str, ...], status: int) -> None:
        super().__init__(" ".join(["refused", str(number), name, *values]))
        self.number, self.name, self.values, self.status = number, name, values, status


class Unanswered(AuctionError):
    """No verdict came while the client's patience lasted: the message may be entered or not.

    number: the message's number, to be given to `Client.resume`; None for a query
    cause:  what the last try met
    """

    def __init__(self, number: Optional[int], cause: str) -> None:
        super().__init__(f"no verdict on message {number}: {cause}" if number else f"no reply: {cause}")
        self.number, self.cause = number, cause


class BadReply(AuctionError):
    """The reply is no verdict, and sending again won't help: the URL isn't the host's, or a proxy refused the request.

    The message stays among `Client.pending`.
    """

    def __init__(self, status: int, body: str) -> None:
        super().__init__(f"status {status}: {body[:200]!r}")
        self.status, self.body = status, body


class NumbersInUse(AuctionError):
    """Another client has the file of numbers open."""


@dataclasses.dataclass(frozen=True)
class Accepted:
    """A verdict: the message's number, and the moment of its entry in seconds after 1970-01-01 UTC."""

    number: int
    moment: int

    @property
    def time(self) -> datetime.datetime:
        """The moment as a time in UTC."""
        return datetime.datetime.fromtimestamp(self.moment, datetime.timezone.utc)


#: What the host says of a message.
Verdict = Union[Accepted, Refused]


@dataclasses.dataclass(frozen=True)
class Terms:
    """What was announced. Amounts are whole dollars of par, closings are Eastern time."""

    auction: str
    cusip: str
    offering: int
    minimum: int
    ceiling: int
    floor: int
    threshold: int
    date: datetime.date
    nc_close: datetime.time
    c_close: datetime.time
    issue: datetime.date
    maturity: datetime.date


@dataclasses.dataclass(frozen=True)
class Results:
    """The results of a published auction. Rates are in percent, the price is per 100 of par.

    From `competitive` on, the values are None where nobody got an award.
    """

    auction: str
    cusip: str
    issue: datetime.date
    maturity: datetime.date
    days: int
    offering: int
    noncompetitive: int
    competitive: Optional[int] = None
    addon: Optional[int] = None
    total: Optional[int] = None
    high: Optional[Decimal] = None
    allotted: Optional[Decimal] = None
    median: Optional[Decimal] = None
    low: Optional[Decimal] = None
    price: Optional[Decimal] = None
    investment: Optional[Decimal] = None


@dataclasses.dataclass(frozen=True)
class Award:
    """What one bidder gets, in whole dollars of par, and pays, in dollars with cents. An add-on has the bidder "+"."""

    bidder: str
    amount: int
    payment: Decimal


@dataclasses.dataclass(frozen=True)
class Bid:
    """An accepted bid. The rate of a noncompetitive one is None; a cancelled one isn't live."""

    number: int
    bidder: str
    rate: Optional[Decimal]
    amount: int
    live: bool


@dataclasses.dataclass(frozen=True)
class Holding:
    """The caller's par of one bill, in whole dollars."""

    cusip: str
    held: int
    pledged: int
    free: int


@dataclasses.dataclass(frozen=True)
class Redemption:
    """What each holder was paid for a redeemed bill, in whole dollars, in the order of registration."""

    paid: Dict[str, int]
    total: int


class Client:
    """A submitter or the operator, who sends messages and asks queries.

    One link to the host is kept open between calls, and is opened again after it broke. An open link holds one of the host's
    workers, so `disconnect` a client that rests: the next call opens it again. Calls of several threads wait for each other.

    Each message and query raises Refused, Unanswered or BadReply where it has no other answer, and ssl.SSLCertVerificationError
    where the host's certificate isn't trusted. A message raises OSError where the file of numbers can't be written: then it
    wasn't sent, or, where its verdict couldn't be noted, it is pending.
    """

    def __init__(
        self,
        url: str,
        key: str,
        numbers: Union[str, "os.PathLike[str]", None],
        *,
        first: int = 1,
        timeout: float = 10.0,
        patience: float = 60.0,
        context: Optional[ssl.SSLContext] = None,
    ) -> None:
        """Opens the file of numbers, and no link yet.

        url:      `http://127.0.0.1:8080`, or `https://` and a proxy's name; a path behind it is put before the host's own
        key:      the submitter's key, or `op:` and the operator's name
        numbers:  the file of this key's messages, each key its own. It is made where it is missing, readable for its owner alone,
                  and one client at a time has it. None for a client that only asks: its messages raise ValueError
        first:    the least number that is used: above all that this key has sent from elsewhere, since no query tells these
        timeout:  seconds without a byte of the host, after which a try is given up
        patience: seconds from the first try on, after which no further one begins
        context:  which certificates are trusted: `ssl.create_default_context(cafile="auction.pem")` for one of one's own

        Raises NumbersInUse where another client has the file, and ValueError where it is no such file.
        """
        parts = urllib.parse.urlsplit(url)
        if parts.scheme not in ("http", "https") or not parts.hostname or parts.query or parts.fragment:
            raise ValueError(f"no URL of a host: {url!r}")
        if not re.fullmatch(r"[!-~]+", key):
            raise ValueError("the key is no word")
        self._prefix = parts.path.rstrip("/")
        self._host = parts.netloc.rpartition("@")[2]
        self._headers = {"Auction-Key": key}
        self._patience = patience
        self._one_at_a_time = threading.Lock()
        self._link: http.client.HTTPConnection
        if parts.scheme == "https":
            trusted = context or ssl.create_default_context()
            self._link = http.client.HTTPSConnection(parts.hostname, parts.port, timeout=timeout, context=trusted)
        else:
            self._link = http.client.HTTPConnection(parts.hostname, parts.port, timeout=timeout)
        self._file = None if numbers is None else _Numbers(numbers, first)

    @property
    def _numbers(self) -> "_Numbers":
        if self._file is None:
            raise ValueError("a client without a file of numbers only asks")
        return self._file

    def disconnect(self) -> None:
        """Closes the link. The next call opens it again."""
        with self._one_at_a_time:
            self._link.close()

    def close(self) -> None:
        """Closes the link and the file of numbers: the client is done."""
        self.disconnect()
        if self._file is not None:
            self._file.close()

    def __enter__(self) -> "Client":
        return self

    def __exit__(self, *_: object) -> None:
        self.close()

    # The operator's messages.

    def register(self, submitter: str, key: str) -> Accepted:
        """Registers a submitter with its key, which can't be changed."""
        return self._send("register", submitter=submitter, key=key)

    def enrol(self, bidder: str, submitter: str) -> Accepted:
        """Enrols a bidder under a submitter."""
        return self._send("enrol", bidder=bidder, submitter=submitter)

    def holiday(self, day: Day) -> Accepted:
        """Enters a day on which no bill is paid: one that matures then is paid on the next day that is none, nor of a weekend.

        It doesn't keep a bill from being issued on that day.
        """
        return self._send("holiday", day=_day(day))

    def announce(
        self,
        auction: str,
        cusip: str,
        *,
        offering: int,
        minimum: int,
        ceiling: int,
        floor: int,
        threshold: int,
        date: Day,
        nc_close: Minute,
        c_close: Minute,
        issue: Day,
        maturity: Day,
    ) -> Accepted:
        """Announces an auction of a bill.

        offering, floor:    par that is offered, and the least of it that goes to competitive bids
        minimum:            the least amount of a bid
        ceiling:            the most that one bidder bids noncompetitively
        threshold:          competitive bids of one bidder that reach it need a report of its position
        nc_close, c_close:  the closings of noncompetitive and of competitive bids on the day `date`
        """
        return self._send(
            "announce", auction=auction, cusip=cusip, offering=offering, minimum=minimum, ceiling=ceiling, floor=floor,
            threshold=threshold, date=_day(date), nc_close=_minute(nc_close), c_close=_minute(c_close), issue=_day(issue),
            maturity=_day(maturity),
        )

    def addon(self, auction: str, holder: str, amount: int) -> Accepted:
        """Adds so many dollars of par, a multiple of 100, that the Reserve Bank is issued beside the offering.

        holder: the submitter whose account is credited. An auction has one add-on, entered before its competitive closing
        """
        return self._send("addon", auction=auction, holder=holder, amount=amount)

    def publish(self, auction: str) -> Accepted:
        """Publishes the results, once the competitive closing has come."""
        return self._send("publish", auction=auction)

    def settle(self, auction: str) -> Accepted:
        """Issues the awards of a published auction, with its add-on, once its issue date has begun."""
        return self._send("settle", auction=auction)

    def redeem(self, cusip: str) -> Accepted:
        """Pays the holders of a bill, once its payment date has begun."""
        return self._send("redeem", cusip=cusip)

    def deposit(self, participant: str, cents: int) -> Accepted:
        """Enters so much money of a submitter, in cents, that came in at the bank."""
        return self._send("deposit", participant=participant, cents=cents)

    def withdraw(self, participant: str, cents: int) -> Accepted:
        """Enters so much money of a submitter, in cents, that went out: no more than its balance."""
        return self._send("withdraw", participant=participant, cents=cents)

    # The submitters' messages.

    def bid(self, auction: str, bidder: str, rate: Rate, amount: int) -> Accepted:
        """Bids competitively: so many dollars of par, a multiple of 100, at this discount rate."""
        return self._send("bid", auction=auction, bidder=bidder, rate=_rate(rate), amount=amount)

    def noncompetitive(self, auction: str, bidder: str, amount: int) -> Accepted:
        """Bids noncompetitively, at the rate of the auction."""
        return self._send("noncompetitive", auction=auction, bidder=bidder, amount=amount)

    def bid_all(self, auction: str, bids: Iterable[Tuple[str, Optional[Rate], int]]) -> List[Verdict]:
        """Bids in a row: 64 at a time go out in one write, which the host keeps in two syncs of its disk in place of two for each.

        bids: bidder, rate and amount of each, as of `bid`; the rate is None for a noncompetitive bid

        Gives the verdicts in the order of the bids, Refused ones too, and raises none of these. It raises Unanswered where bids have
        no verdict while the client's patience lasts. Those are then pending, and the bids after these 64 weren't sent.
        """
        messages = [
            ("noncompetitive", dict(auction=auction, bidder=bidder, amount=amount)) if rate is None else
            ("bid", dict(auction=auction, bidder=bidder, rate=_rate(rate), amount=amount))
            for bidder, rate, amount in bids
        ]
        verdicts: List[Verdict] = []
        with self._one_at_a_time:
            for first in range(0, len(messages), _AT_ONCE):
                verdicts += self._settle_all(self._numbers.take_all(messages[first : first + _AT_ONCE]))
        return verdicts

    def cancel(self, auction: str, bid: int) -> Accepted:
        """Cancels the accepted bid of this number."""
        return self._send("cancel", auction=auction, bid=bid)

    def position(self, auction: str, bidder: str, position: int) -> Accepted:
        """Reports what the bidder will hold of the bill already, in whole dollars; the last report counts."""
        return self._send("position", auction=auction, bidder=bidder, position=position)

    def transfer(self, cusip: str, to: str, amount: int) -> Accepted:
        """Moves free par to another submitter."""
        return self._send("transfer", cusip=cusip, to=to, amount=amount)

    def pledge(self, cusip: str, to: str, amount: int) -> Accepted:
        """Pledges free par to another submitter, under the number of this message."""
        return self._send("pledge", cusip=cusip, to=to, amount=amount)

    def release(self, holder: str, pledge: int, amount: int) -> Accepted:
        """Releases so much of the pledge that the holder gave under this number."""
        return self._send("release", holder=holder, pledge=pledge, amount=amount)

    def sell(self, cusip: str, to: str, amount: int, cents: int) -> Accepted:
        """Offers par of a bill to another submitter for a price in cents, under the number of this message.

        It locks nothing: that the par is free, and the price there, is looked at when the offer is bought.
        """
        return self._send("sell", cusip=cusip, to=to, amount=amount, cents=cents)

    def buy(self, seller: str, offer: int) -> Accepted:
        """Buys the seller's offer of this number: its par and its price move in this one message."""
        return self._send("buy", seller=seller, offer=offer)

    def retract(self, offer: int) -> Accepted:
        """Takes the caller's offer of this number back for good."""
        return self._send("retract", offer=offer)

    # Queries.

    def terms(self, auction: str) -> Terms:
        """What was announced of an auction."""
        return _record(Terms, self._ask("terms", auction))

    def results(self, auction: str) -> Results:
        """The results of an auction that is published."""
        return _record(Results, self._ask("results", auction))

    def awards(self, auction: str) -> List[Award]:
        """What the caller's bidders with live bids get and pay, in the order of enrolment, and then the add-on that it holds."""
        words = map(str.split, self._ask("awards", auction))
        return [Award(bidder, int(amount), Decimal(payment)) for bidder, amount, payment in words]

    def bids(self, auction: str) -> List[Bid]:
        """The caller's accepted bids, in the order of acceptance."""
        words = map(str.split, self._ask("bids", auction))
        return [
            Bid(int(number), bidder, None if rate == "n" else Decimal(rate), int(amount), state == "live")
            for number, bidder, rate, amount, state in words
        ]

    def holdings(self) -> List[Holding]:
        """Each bill of which the caller holds something."""
        words = map(str.split, self._ask("holdings"))
        return [Holding(cusip, int(held), int(pledged), int(free)) for cusip, held, pledged, free in words]

    def funds(self) -> Decimal:
        """The caller's balance, in dollars with two decimals."""
        (line,) = self._ask("funds")
        return Decimal(line.split()[1])

    def redemption(self, cusip: str) -> Redemption:
        """What the holders of a bill were paid; for the operator."""
        *paid, total = map(str.split, self._ask("redemption", cusip))
        return Redemption({name: int(amount) for name, amount in paid}, int(total[1]))

    # Messages without a verdict.

    @property
    def next_number(self) -> int:
        """The number that the next message takes."""
        return self._numbers.next

    def pending(self) -> Dict[int, Dict[str, Any]]:
        """The messages that were perhaps sent and have no verdict yet, by their number.

        There are some where a client was killed, or raised Unanswered or BadReply.
        """
        return {number: json.loads(body) for number, body in self._numbers.pending.items()}

    def resume(self, number: int) -> Accepted:
        """Sends a pending message again. The host gives its first verdict again where it accepted the message, and else decides it.

        Raises KeyError where no message of this number is pending.
        """
        with self._one_at_a_time:
            return self._settle(number, self._numbers.pending[number])

    # How it is done.

    def _send(self, kind: str, **members: object) -> Accepted:
        with self._one_at_a_time:
            (number,) = self._numbers.take_all([(kind, members)])
            return self._settle(number, self._numbers.pending[number])

    def _settle(self, number: int, body: str) -> Accepted:
        """Sends the message until a verdict comes, and notes the verdict."""

        def verdict(status: int, text: str) -> Accepted:
            return _accepted(number, status, text)

        try:
            accepted = self._until_answered(number, "POST", "/messages", body, verdict)
        except Refused as refusal:
            self._note({number: refusal})
            raise
        self._note({number: accepted})
        return accepted

    def _note(self, verdicts: Dict[int, Verdict]) -> None:
        for number, verdict in verdicts.items():
            _log.info("message %d: %s", number, _told(verdict))
        self._numbers.settle_all({number: _told(verdict) for number, verdict in verdicts.items()})

    def _settle_all(self, numbers: Sequence[int]) -> List[Verdict]:
        """Sends the messages in one write, and again those that have no verdict; gives the verdicts in the order of the numbers."""
        verdicts: Dict[int, Verdict] = {}
        tries = _Tries(self._patience)
        left = list(numbers)
        try:
            while left:
                cause = self._exchange_all(left, verdicts)
                left = [number for number in numbers if number not in verdicts]
                if left:
                    tries.wait(left[0], cause)
        finally:
            self._note(verdicts)
        return [verdicts[number] for number in numbers]

    def _exchange_all(self, numbers: Sequence[int], verdicts: Dict[int, Verdict]) -> str:
        """Sends these messages, and adds their verdicts as they come. Says why others have none."""
        cause = ""
        head = "".join(f"{name}: {value}\r\n" for name, value in [("Host", self._host), *self._headers.items()])
        requests = b""
        for number in numbers:
            body = self._numbers.pending[number].encode()
            requests += f"POST {self._prefix}/messages HTTP/1.1\r\n{head}Content-Length: {len(body)}\r\n\r\n".encode() + body
        try:
            if self._link.sock is None:
                self._link.connect()
            link = cast(socket.socket, self._link.sock)
            link.sendall(requests)
            replies = _Replies(link)
            for number in numbers:
                reply = http.client.HTTPResponse(cast(socket.socket, replies), method="POST")
                reply.begin()
                text = reply.read().decode("utf-8", "replace")
                refusal = _refusal(reply.status, text)
                if refusal is not None:
                    verdicts[number] = refusal
                elif reply.status in _SEND_AGAIN:
                    cause = f"status {reply.status}: {text[:200]!r}"
                else:
                    verdicts[number] = _accepted(number, reply.status, text)
                if reply.will_close:
                    self._link.close()
                    return cause or "the host closed the link"
        except ssl.SSLCertVerificationError:
            raise
        except (OSError, http.client.HTTPException) as error:
            self._link.close()
            return f"{type(error).__name__}: {error}"
        except BaseException:
            self._link.close()
            raise
        return cause

    def _ask(self, *words: str) -> List[str]:
        """The lines of a reading."""

        def reading(status: int, text: str) -> List[str]:
            if status != 200:
                raise BadReply(status, text)
            return text.splitlines()

        path = "/" + "/".join(urllib.parse.quote(word, safe="") for word in words)
        with self._one_at_a_time:
            return self._until_answered(None, "GET", path, None, reading)

    def _until_answered(
        self, number: Optional[int], method: str, path: str, body: Optional[str], read: Callable[[int, str], T]
    ) -> T:
        """What `read` makes of the first reply that says something of the request. A refusal is raised."""
        tries = _Tries(self._patience)
        while True:
            try:
                status, text = self._exchange(method, path, body)
            except ssl.SSLCertVerificationError:
                # Nothing was sent, and the next try would meet the same.
                raise
            except (OSError, http.client.HTTPException) as error:
                cause = f"{type(error).__name__}: {error}"
            else:
                refusal = _refusal(status, text)
                if refusal is not None:
                    raise refusal
                if status not in _SEND_AGAIN:
                    return read(status, text)
                cause = f"status {status}: {text[:200]!r}"
            tries.wait(number, cause)

    def _exchange(self, method: str, path: str, body: Optional[str]) -> Tuple[int, str]:
        """One request on the open link, and its reply: status and body."""
        try:
            self._link.request(method, self._prefix + path, body, self._headers)
            reply = self._link.getresponse()
            return reply.status, reply.read().decode("utf-8", "replace")
        except BaseException:
            # A reply that comes later must not be taken for the next request's.
            self._link.close()
            raise


class _Tries:
    """The pauses between tries, each up to twice as long as the one before, until the client's patience ends."""

    def __init__(self, patience: float) -> None:
        self._last = time.monotonic() + patience
        self._pause, self._count = _FIRST_PAUSE, 1

    def wait(self, number: Optional[int], cause: str) -> None:
        """Waits for the next try, or raises Unanswered. A part of the pause is left to chance, so that clients don't come at once."""
        what = f"message {number}" if number else "query"
        pause = random.uniform(self._pause / 2, self._pause)
        if time.monotonic() + pause > self._last:
            _log.warning("%s: no verdict after try %d: %s", what, self._count, cause)
            raise Unanswered(number, cause)
        _log.warning("%s: try %d: %s; the next one in %.2f s", what, self._count, cause, pause)
        time.sleep(pause)
        self._pause = min(2 * self._pause, _LONGEST_PAUSE)
        self._count += 1


class _Replies:
    """The bytes of a link, from which replies are read one after the other: what ends a reply doesn't close them."""

    def __init__(self, link: socket.socket) -> None:
        self._file: BinaryIO = link.makefile("rb")

    def makefile(self, *_: object) -> "_Replies":
        return self

    def close(self) -> None:
        pass

    def __getattr__(self, name: str) -> Any:
        return getattr(self._file, name)


class _Numbers:
    """The file of one key's messages: a line of JSON for each message, which is what is sent, and one for each verdict."""

    def __init__(self, path: Union[str, "os.PathLike[str]"], first: int) -> None:
        self._file = open(os.open(path, os.O_RDWR | os.O_CREAT, 0o600), "r+b", buffering=0)
        try:
            try:
                fcntl.flock(self._file, fcntl.LOCK_EX | fcntl.LOCK_NB)
            except OSError:
                raise NumbersInUse(str(path)) from None
            self.pending: Dict[int, str] = {}
            self.next = first
            self._end = self._read()
            self._file.truncate(self._end)
            self._file.seek(self._end)
            self._sync_folder(path)
        except BaseException:
            self._file.close()
            raise

    def _read(self) -> int:
        """Takes in the whole lines, and says where they end."""
        end = 0
        with open(os.dup(self._file.fileno()), "rb") as lines:
            for line in lines:
                if not line.endswith(b"\n"):
                    # A line that was cut wasn't synced. So its message wasn't sent, or its verdict is told again.
                    break
                said = json.loads(line)
                if not isinstance(said, dict) or not isinstance(said.get("number"), int):
                    raise ValueError("this is no file of numbers")
                if "verdict" in said:
                    self.pending.pop(said["number"], None)
                else:
                    self.pending[said["number"]] = line.decode().rstrip("\n")
                    self.next = max(self.next, said["number"] + 1)
                end += len(line)
        return end

    @staticmethod
    def _sync_folder(path: Union[str, "os.PathLike[str]"]) -> None:
        """A file that was made just now is there also after a crash of the machine."""
        folder = os.open(os.path.dirname(os.path.abspath(path)), os.O_RDONLY)
        try:
            os.fsync(folder)
        finally:
            os.close(folder)

    def take_all(self, messages: Sequence[Tuple[str, Dict[str, Any]]]) -> List[int]:
        """New messages, of which each is a kind and its members, under the next numbers, once they are kept."""
        numbers = range(self.next, self.next + len(messages))
        bodies = [json.dumps({"number": number, "kind": kind, **members}) for number, (kind, members) in zip(numbers, messages)]
        self._write(bodies)
        self.next += len(messages)
        self.pending.update(zip(numbers, bodies))
        return list(numbers)

    def settle_all(self, verdicts: Dict[int, str]) -> None:
        if verdicts:
            self._write([json.dumps({"number": number, "verdict": verdict}) for number, verdict in verdicts.items()])
        for number in verdicts:
            self.pending.pop(number, None)

    def _write(self, lines: Sequence[str]) -> None:
        """Keeps the lines, or leaves the file as it was."""
        text = "".join(f"{line}\n" for line in lines).encode()
        try:
            if self._file.write(text) != len(text):
                raise OSError(errno.ENOSPC, "the file of numbers takes no whole line")
            os.fsync(self._file.fileno())
        except OSError:
            self._file.truncate(self._end)
            self._file.seek(self._end)
            raise
        self._end += len(text)

    def close(self) -> None:
        self._file.close()


def _refusal(status: int, text: str) -> Optional[Refused]:
    """The refusal that a reply is, if it is one."""
    said = re.fullmatch(r"refused ([0-9]+) ([A-Za-z]+)((?: \S+)*)\n", text)
    return Refused(int(said[1]), said[2], tuple(said[3].split()), status) if said else None


def _accepted(number: int, status: int, text: str) -> Accepted:
    """The verdict on the message of this number. Raises BadReply where the reply is none."""
    said = re.fullmatch(r"accepted ([0-9]+) ([0-9]+)\n", text)
    if status != 200 or not said or int(said[1]) != number:
        raise BadReply(status, text)
    return Accepted(number, int(said[2]))


def _told(verdict: Verdict) -> str:
    return f"accepted {verdict.number} {verdict.moment}" if isinstance(verdict, Accepted) else str(verdict)


def _rate(rate: Rate) -> str:
    """The text of a rate, with three decimals where it is a number."""
    if isinstance(rate, str):
        return rate
    if not isinstance(rate, Decimal):
        raise TypeError(f"a rate is a Decimal or a text, not a {type(rate).__name__}")
    text = f"{rate:.3f}"
    if Decimal(text) != rate:
        raise ValueError(f"a rate has at most three decimals: {rate}")
    return text


def _day(day: Day) -> str:
    return day if isinstance(day, str) else day.strftime("%Y-%m-%d")


def _minute(minute: Minute) -> str:
    return minute if isinstance(minute, str) else minute.strftime("%H:%M")


_FIELDS: Dict[str, Callable[[str], Any]] = {
    **dict.fromkeys(["date", "issue", "maturity"], datetime.date.fromisoformat),
    **dict.fromkeys(["nc_close", "c_close"], datetime.time.fromisoformat),
    **dict.fromkeys(["high", "allotted", "median", "low", "price", "investment"], Decimal),
    **dict.fromkeys(["auction", "cusip"], str),
}


def _record(kind: Type[T], lines: List[str]) -> T:
    """A reading of lines `FIELD VALUE`. Lines of words alone, such as `no awards`, are no fields."""
    words = [line.split(" ") for line in lines]
    known = {field.name for field in dataclasses.fields(kind)}
    return kind(**{it[0]: _FIELDS.get(it[0], int)(it[1]) for it in words if len(it) == 2 and it[0] in known})
