"""A door that answers whoever reaches it, as a user: door.py USER PORT. Run by tests/lib/walling.sh."""
import os
import pwd
import socket
import sys

user = pwd.getpwnam(sys.argv[1])
os.setgroups([])
os.setgid(user.pw_gid)
os.setuid(user.pw_uid)
with socket.create_server(("127.0.0.1", int(sys.argv[2]))) as listener:
    while True:
        link = listener.accept()[0]
        link.recv(4096)
        link.sendall(b"HTTP/1.1 200 OK\r\nContent-Length: 2\r\nConnection: close\r\n\r\n{}")
        link.close()
