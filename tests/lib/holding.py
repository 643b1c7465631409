"""Opens links to a listener at port 443, from several addresses of the loopback device, and says how
many are held, or whether only some are opened in a moment. Run behind the packet filter:

    holding.py held|opened [6]    by IPv4, or by IPv6, for which it gives the device more addresses
    holding.py idle PORT SECONDS  how long a link of TLS is kept that asks once, and then nothing

Run by tests/lib/walling.sh and tests/long/operate.sh."""
import fcntl
import multiprocessing
import socket
import ssl
import struct
import sys
import time

PORT = 443
# An address that opens more links than it may, with another one that counts as it; one beside them;
# one behind which many callers stand (doors.nft); and one that only opens.
FIRST, ALSO, BESIDE, SHARED, OPENING = "127.0.0.2", "127.0.0.2", "127.0.0.3", "127.0.0.9", "127.0.0.4"
FIRST_6, ALSO_6, BESIDE_6, SHARED_6, OPENING_6 = "2001:db8:1::2", "2001:db8:1::3", "2001:db8:2::2", "2001:db8::1", "2001:db8:4::2"
ADD_ADDRESS = 0x8916


def given(address):
    """Gives the loopback device this address of IPv6."""
    with socket.socket(socket.AF_INET6, socket.SOCK_DGRAM) as asking:
        packed = socket.inet_pton(socket.AF_INET6, address)
        fcntl.ioctl(asking, ADD_ADDRESS, struct.pack("16sIi", packed, 128, socket.if_nametoindex("lo")))


def opened(source, count, pause=0.0):
    """Links from this address, as many as are let in, with a pause of seconds before each."""
    family, target = (socket.AF_INET6, "::1") if ":" in source else (socket.AF_INET, "127.0.0.1")
    links = []
    for _ in range(count):
        time.sleep(pause)
        link = socket.socket(family)
        link.settimeout(1)
        try:
            link.bind((source, 0))
            link.connect((target, PORT))
            links.append(link)
        except OSError:
            link.close()
    return links


def ended(source, count):
    """How many links from this address are let in, each ended before the next: none is held."""
    let_in = 0
    for _ in range(count):
        for link in opened(source, 1):
            link.setsockopt(socket.SOL_SOCKET, socket.SO_LINGER, struct.pack("ii", 1, 0))
            link.close()
            let_in += 1
    return let_in


def opening(source):
    """How many of 960 links in a moment are let in, by eight processes: a busy machine gives one of
    them too little time.
    """
    with multiprocessing.Pool(8) as pool:
        let_in = sum(pool.starmap(ended, [(source, 120)] * 8))
    return "opened" if 200 <= let_in < 900 else let_in


def idle(port, most):
    """The seconds after which a link ends that asks nothing more, or how long was waited."""
    trusting = ssl.create_default_context()
    trusting.check_hostname, trusting.verify_mode = False, ssl.CERT_NONE
    with trusting.wrap_socket(socket.create_connection(("127.0.0.1", port))) as link:
        link.sendall(b"GET / HTTP/1.1\r\nHost: a\r\n\r\n")
        began = time.time()
        link.settimeout(most)
        try:
            while link.recv(65536):
                pass
        except TimeoutError:
            pass
        return round(time.time() - began)


def main(what, is_6):
    family, site = (socket.AF_INET6, "::1") if is_6 else (socket.AF_INET, "127.0.0.1")
    sources = (FIRST_6, ALSO_6, BESIDE_6, SHARED_6, OPENING_6) if is_6 else (FIRST, ALSO, BESIDE, SHARED, OPENING)
    for source in sources if is_6 else ():
        given(source)
    first, also, beside, shared, alone = sources
    with socket.create_server((site, PORT), family=family, backlog=1000) as listener:
        if what == "opened":
            print(opening(alone))
            return
        # So slowly that how many an address opens in a second bounds none of them.
        held = [opened(first, 130, 0.008) + opened(also, 130, 0.008), opened(beside, 50), opened(shared, 250)]
        print("held", len(held[0]), "beside", len(held[1]), "shared", len(held[2]))


if sys.argv[1] == "idle":
    print(idle(int(sys.argv[2]), int(sys.argv[3])))
else:
    main(sys.argv[1], sys.argv[2:] == ["6"])
