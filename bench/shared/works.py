"""What several benchmarks give to the host and to its peers, made from a seed: books, scripts, tables, journals."""

import os
import random
import subprocess
from collections import Counter

BIDDERS = 4_096
SUBMITTERS = 256
BILLS = 32
MOST_PLEDGES = 1_000

OPENED, CLOSED = 1_730_700_000, 1_730_737_800
# 2024-11-07, 2024-11-08 and 2025-02-06 start.
ISSUED, REISSUED, PAID = 1_730_955_600, 1_731_042_000, 1_738_818_000
# For commands that read the clock: later than it, so that the running moment is the journal's.
LATER, CLOSED_LATER = 3_400_000_000, 3_426_679_800


def terms_of(date, issue, maturity):
    """Everything is on offer to everybody: no limit is met."""
    return ('"offering":1000000000000,"minimum":100,"ceiling":100,"floor":100,"threshold":1000000000000,'
            f'"date":"{date}","nc_close":"11:00","c_close":"11:30","issue":"{issue}","maturity":"{maturity}"')


TERMS = terms_of("2024-11-04", "2024-11-07", "2025-02-06")
TERMS_LATER = terms_of("2078-08-02", "2078-08-04", "2078-11-03")


class Script:
    """Lines of messages, numbered by sender."""

    def __init__(self, path):
        self.out, self.numbers = open(path, "w"), Counter()

    def message(self, moment, key, kind, members):
        self.numbers[key] += 1
        self.out.write(f'{moment} {key} {{"number":{self.numbers[key]},"kind":"{kind}",{members}}}\n')
        return self.numbers[key]

    def operator(self, moment, kind, members):
        self.message(moment, "op:root", kind, members)

    def ask(self, moment, key, kind, members):
        self.out.write(f'{moment} {key} {{"kind":"{kind}",{members}}}\n')

    def end(self):
        self.out.write("end\n")
        self.out.close()
        return sum(self.numbers.values())

    def announce(self, auction, cusip, issue="2024-11-07"):
        terms = terms_of("2024-11-04", issue, "2025-02-06")
        self.operator(OPENED, "announce", f'"auction":"{auction}","cusip":"{cusip}",{terms}')

    def bid(self, seeded, key, auction, bidder, moment=OPENED):
        amount = 100 * seeded.randint(1, 1000)
        self.message(moment, key, "bid", f'"auction":"{auction}","bidder":"b{bidder}",'
                     f'"rate":"{seeded.randrange(1000, 1101) / 200:.3f}","amount":{amount}')
        return amount


def cusip_of(stem):
    """The stem and its check digit."""
    digits = 0
    for place, character in enumerate(stem):
        value = int(character, 36) * (1 + place % 2)
        digits += value // 10 + value % 10
    return f"{stem}{-digits % 10}"


def script_of_bids_alone(path, count, bidders):
    """So many valid bids of the dealer, later than the clock."""
    seeded, script = random.Random(count), Script(path)
    for bid in range(count):
        script.bid(seeded, "k1", "bill", bid % bidders, LATER)
    script.end()


def script_of_bids(path, count):
    """The house, so many valid bids, the publication, the results; the count of messages, and the last line told."""
    seeded, script = random.Random(count), Script(path)
    script.operator(OPENED, "register", '"submitter":"dealer","key":"k1"')
    for bidder in range(BIDDERS):
        script.operator(OPENED, "enrol", f'"bidder":"b{bidder}","submitter":"dealer"')
    script.announce("bill", "912797AA5")
    for bid in range(count):
        script.bid(seeded, "k1", "bill", bid % BIDDERS)
    script.operator(CLOSED, "publish", '"auction":"bill"')
    script.ask(CLOSED, "k1", "results", '"auction":"bill"')
    return script.end(), "bids at lower rates were accepted in full"


class Moves:
    """Valid transfers, pledges and releases over what each submitter holds."""

    def __init__(self, seeded, script, held):
        self.seeded, self.script, self.held = seeded, script, held
        self.pledged, self.marks, self.open = Counter(), [], Counter()

    def move(self, moment):
        kind = self.seeded.randrange(4)
        if kind == 3 and self.marks:
            return self.release(moment)
        return self.transfer(moment) if kind < 2 else self.pledge(moment)

    def two(self):
        holder = self.seeded.randrange(SUBMITTERS)
        other = (holder + self.seeded.randrange(1, SUBMITTERS)) % SUBMITTERS
        return holder, other, self.seeded.choice(list(self.held))

    def part_of_free(self, holder, bill):
        free = self.held[bill][holder] - self.pledged[holder, bill]
        return max(100, free // (100 * self.seeded.randint(20, 2000)) * 100) if free else 0

    def transfer(self, moment):
        holder, other, bill = self.two()
        par = self.part_of_free(holder, bill)
        if par:
            self.held[bill][holder] -= par
            self.held[bill][other] += par
            self.script.message(moment, f"k{holder}", "transfer", f'"cusip":"{bill}","to":"s{other}","amount":{par}')
        return par > 0

    def pledge(self, moment):
        holder, other, bill = self.two()
        par = self.part_of_free(holder, bill)
        if not par or self.open[holder] == MOST_PLEDGES:
            return False
        number = self.script.message(moment, f"k{holder}", "pledge", f'"cusip":"{bill}","to":"s{other}","amount":{par}')
        self.pledged[holder, bill] += par
        self.open[holder] += 1
        self.marks.append([holder, number, other, bill, par])
        return True

    def release(self, moment):
        place = self.seeded.randrange(len(self.marks))
        holder, number, other, bill, left = mark = self.marks[place]
        par = left if self.seeded.random() < 0.7 else self.seeded.randint(1, left // 100) * 100
        self.script.message(moment, f"k{other}", "release", f'"holder":"s{holder}","pledge":{number},"amount":{par}')
        self.pledged[holder, bill] -= par
        mark[4] -= par
        if not mark[4]:
            self.open[holder] -= 1
            self.marks[place] = self.marks[-1]
            self.marks.pop()
        return True


def script_of_moves(path, count):
    """32 bills in two auctions each; half bids, half transfers, pledges and releases; the redemptions, each read."""
    seeded, script = random.Random(count), Script(path)
    for submitter in range(SUBMITTERS):
        script.operator(OPENED, "register", f'"submitter":"s{submitter}","key":"k{submitter}"')
    for bidder in range(BIDDERS):
        script.operator(OPENED, "enrol", f'"bidder":"b{bidder}","submitter":"s{bidder % SUBMITTERS}"')
    held = {cusip_of(f"912797{bill:02}"): Counter() for bill in range(BILLS)}
    auctions = [(f"{name}{place}", bill) for name in ("first", "again") for place, bill in enumerate(held)]
    for auction, bill in auctions:
        script.announce(auction, bill, "2024-11-07" if auction.startswith("first") else "2024-11-08")
    for bid in range(count // 2):
        auction, bill = seeded.choice(auctions)
        bidder = bid % BIDDERS
        held[bill][bidder % SUBMITTERS] += script.bid(seeded, f"k{bidder % SUBMITTERS}", auction, bidder)
    for auction, _ in auctions:
        script.operator(CLOSED, "publish", f'"auction":"{auction}"')
    for auction, _ in auctions:
        script.operator(ISSUED if auction.startswith("first") else REISSUED, "settle", f'"auction":"{auction}"')
    moves = Moves(seeded, script, held)
    made = 0
    while made < count // 2:
        made += moves.move(REISSUED)
    for bill in held:
        script.operator(PAID, "redeem", f'"cusip":"{bill}"')
        script.ask(PAID, "op:root", "redemption", f'"cusip":"{bill}"')
    return script.end(), f"total {sum(held[bill].values())}"


def opening(path, moment=OPENED, terms=TERMS, bidders=BIDDERS):
    """A script that registers a dealer, enrols its bidders and announces a bill; how many messages it has."""
    script = Script(path)
    script.operator(moment, "register", '"submitter":"dealer","key":"k1"')
    for bidder in range(bidders):
        script.operator(moment, "enrol", f'"bidder":"b{bidder}","submitter":"dealer"')
    script.operator(moment, "announce", f'"auction":"bill","cusip":"912797AA5",{terms}')
    return script.end()


def head(program, folder, moment=OPENED, terms=TERMS, bidders=BIDDERS):
    """Makes the journal of all but the bids, and tells its entries."""
    path = os.path.join(folder, "script")
    entries = opening(path, moment, terms, bidders)
    with open(path) as given:
        words = [program, "run", "--op", "root"]
        told = subprocess.run(words, cwd=folder, stdin=given, stdout=subprocess.PIPE, check=True).stdout
    assert told.count(b"accepted") == entries, told
    os.remove(path)
    return entries


def name(text):
    return bytes([len(text)]) + text.encode()


def record(submitter, number, moment, tag, fields):
    return name(submitter) + number.to_bytes(8, "big") + moment.to_bytes(8, "big") + bytes([tag]) + fields


def frame(ordinal, payload):
    return b"\x01" + len(payload).to_bytes(4, "big") + ordinal.to_bytes(8, "big") + payload


def add_bids(path, bids, is_published=False):
    """Adds valid bids to the journal of `head`, and the publication; their sum, and the greatest rate in steps."""
    seeded, ordinal, total, high = random.Random(bids), 2 + BIDDERS, 0, 0
    with open(path, "r+b") as journal:
        journal.seek(-1, os.SEEK_END)
        for bid in range(bids):
            steps, amount = seeded.randrange(1000, 1101), 100 * seeded.randint(1, 1000)
            fields = name("bill") + name(f"b{bid % BIDDERS}") + steps.to_bytes(4, "big") + amount.to_bytes(8, "big")
            journal.write(frame(ordinal + bid, record("dealer", bid + 1, OPENED, 5, fields)))
            total, high = total + amount, max(high, steps)
        if is_published:
            journal.write(frame(ordinal + bids, record("operator", ordinal + 1, CLOSED, 9, name("bill"))))
        journal.write(b"\0")
    return total, high


def book(path, lines, bidders):
    """A book for `award` of so many bidders, or with all bidders distinct where None is given."""
    seeded = random.Random(lines)
    with open(path, "w") as out:
        out.write("offering 1000000000000 1000000 91\n")
        for line in range(lines - 2):
            # One bidder in ten bids noncompetitively, and of another tenth one line in ten reports a position.
            bidder = line if bidders is None else seeded.randrange(bidders)
            amount = 100 * seeded.randint(1, 100_000)
            if bidder % 10 == 0:
                out.write(f"n b{bidder} {amount}\n")
            elif bidder % 10 == 1 and seeded.random() < 0.1:
                out.write(f"p b{bidder} {amount}\n")
            else:
                out.write(f"c b{bidder} {seeded.randrange(2000) / 200:.3f} {amount}\n")
        out.write("end\n")


def table_of_bids(path, count, bidders=BIDDERS):
    """A table for `import`: valid bids of the dealer; their sum, and the greatest rate in steps."""
    seeded, total, high = random.Random(count), 0, 0
    with open(path, "w") as out:
        out.write("number,auction,bidder,rate,amount\n")
        for row in range(count):
            steps, amount = seeded.randrange(1000, 1101), 100 * seeded.randint(1, 1000)
            out.write(f"{row + 1},bill,b{row % bidders},{steps / 200:.3f},{amount}\n")
            total, high = total + amount, max(high, steps)
    return total, high
