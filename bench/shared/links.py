"""Bids over links of HTTP, for bench/serve and bench/peers: a house of dealers, their posts, the replies to them."""

import socket
import subprocess

MOMENT = 3_400_000_000
TERMS = ('"announce","auction":"bill","cusip":"912797AA5","offering":1000000000000,"minimum":100,"ceiling":100,'
         '"floor":100,"threshold":1000000000000,"date":"2078-08-02","nc_close":"11:00","c_close":"11:30",'
         '"issue":"2078-08-04","maturity":"2078-11-03"')


def opening(links):
    """A dealer with a fund for each link: a bidder has at most 1,000 accepted bids, so ten funds each."""
    messages = []
    for link in range(links):
        messages.append(f'"register","submitter":"dealer{link}","key":"k{link}"')
        messages += [f'"enrol","bidder":"fund{link}-{fund}","submitter":"dealer{link}"' for fund in range(10)]
    messages.append(TERMS)
    lines = [f'{MOMENT} op:root {{"number":{number},"kind":{message}}}\n' for number, message in enumerate(messages, 1)]
    return "".join(lines) + "end\n"


def post(link, number):
    body = (f'{{"number":{number},"kind":"bid","auction":"bill","bidder":"fund{link}-{number // 1000}","rate":"5.000",'
            f'"amount":100}}')
    return (f"POST /messages HTTP/1.1\r\nAuction-Key: k{link}\r\nContent-Length: {len(body)}\r\n\r\n{body}").encode()


def free_port():
    with socket.socket() as listener:
        listener.bind(("127.0.0.1", 0))
        return listener.getsockname()[1]


def start(program, folder, workers, links):
    port = free_port()
    words = ["serve", "--op", "root", "--port", str(port), "--workers", str(workers), "--links", str(links)]
    server = subprocess.Popen([program, *words], cwd=folder, stdout=subprocess.PIPE, stderr=subprocess.PIPE)
    return server, port


def replies(numbers):
    """The bytes of the replies to accepted messages."""
    bodies = [f"accepted {number} {MOMENT}\n" for number in numbers]
    head = "HTTP/1.1 200 OK\r\nContent-Type: text/plain\r\nContent-Length: "
    return "".join(f"{head}{len(body)}\r\n\r\n{body}" for body in bodies).encode()


def asked(client, port, links, row, count):
    """Seconds of so many bids on each link, and of the waits for a reply the median and the 99th percentile."""
    numbered = [range(first, first + row) for first in range(1, count + 1, row)]
    given = [f"{port} {links} {len(numbered)}\n".encode()]
    for link in range(links):
        for numbers in numbered:
            text, reply = b"".join(post(link, number) for number in numbers), replies(numbers)
            given.append(f"{len(text)} {len(reply)}\n".encode() + text + reply)
    told = subprocess.run([client], input=b"".join(given), stdout=subprocess.PIPE, check=True).stdout
    return [float(word) for word in told.split()]
