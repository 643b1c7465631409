"""Asks a proxy for more than a user may have at an address, then for a file of the page, which
isn't counted there, and at last for a look by another user: hasty.py URL FOLDER, with the
folder's certificate. Run by tests/long/operate.sh."""
import base64
import concurrent.futures
import http.client
import ssl
import sys
import time


def codes(user, path, count):
    """The codes of so many requests over one link, ten a second at most."""
    trusted = ssl.create_default_context(cafile=f"{sys.argv[2]}/tls/certificate.pem")
    link = http.client.HTTPSConnection(sys.argv[1].removeprefix("https://"), context=trusted)
    word = base64.b64encode(f"{user}:{user}'s word".encode()).decode()
    got = []
    for _ in range(count):
        link.request("GET", path, headers={"Authorization": f"Basic {word}"})
        answer = link.getresponse()
        answer.read()
        got.append(answer.status)
        time.sleep(0.1)
    return got


# Eighty a second are less than an address may have, and more than a user.
with concurrent.futures.ThreadPoolExecutor(8) as pool:
    got = [code for each in pool.map(lambda _: codes("treasury", "/whoami", 60), range(8)) for code in each]
files = codes("treasury", "/desk/icon.svg", 3)
time.sleep(3)
bounded = got.count(429) >= 20 and got.count(200) >= 200
print("bounded" if bounded else f"{got.count(200)} {got.count(429)}", *files, *codes("auditor", "/lines/3/2026", 1))
