"""How the calls of a talk are timed: read by the scripts that hold a desk open."""
import threading
import time


def talk(desk, lines):
    """The seconds that a desk took over these lines, and its replies."""
    text = "".join(lines).encode()
    start = time.time()
    writer = threading.Thread(target=lambda: (desk.stdin.write(text), desk.stdin.flush()))
    writer.start()
    replies = [desk.stdout.readline() for _ in lines]
    writer.join()
    return time.time() - start, replies
