"""Two clients of one server by turns: the first holds a session, and the second waits until it is let go.

    crates/mi_server/out/mi_server --listen 8000 --clients 2 &
    python3 examples/two_clients.py 8000
"""

import socket
import sys
import time


def connected(port):
    """A connection, once the server listens."""
    for _ in range(50):
        try:
            return socket.create_connection(("127.0.0.1", port))
        except ConnectionRefusedError:
            time.sleep(0.1)
    sys.exit(f"nothing listens on port {port}")


class Client:
    def __init__(self, name, port):
        self.name = name
        self.stream = connected(port)
        self.replies = self.stream.makefile()

    def ask(self, line):
        self.stream.sendall(line.encode() + b"\n")
        print(f"{self.name:6} {line}\n       {self.replies.readline().strip()}")

    def leave(self):
        self.stream.close()
        self.replies.close()


INSERT = '{"cmd":"insert","row":{"owner":"%s","balance":1,"vip":false}}'
GET = '{"cmd":"get","id":0}'

port = int(sys.argv[1])
first, second = Client("first", port), Client("second", port)
first.ask('{"cmd":"start"}')
second.ask(INSERT % "bob")  # busy: the first holds a session
first.ask(INSERT % "ann")
second.ask(GET)  # look-ups are answered, and see what the session has changed so far
first.ask('{"cmd":"push"}')  # the session stays open, and nobody holds it
second.ask('{"cmd":"undo"}')  # so the second may undo it
first.ask('{"cmd":"start"}')
second.ask(GET)
first.ask(INSERT % "ann")
first.leave()  # what it held is undone
second.ask(GET)
second.ask(INSERT % "bob")
second.leave()
