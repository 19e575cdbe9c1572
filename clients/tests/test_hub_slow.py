"""Clients that are slow on purpose, at a hub whose limits of time are a few seconds."""
import socket
import threading
import time
import unittest

from hubs import HubAt
from packages import wants

# Limits of time, in seconds.
SHORT = {"web.MOST_IDLE": 3, "web.MOST_UNKNOWN": 3, "web.MOST_SENDING": 3, "web.MOST_STALLED": 3, "events.HEARTBEAT": 1}


def quick():
    return HubAt({"all": ["*=read,preview,edit"]}, constants=SHORT)


@wants("python3-aiohttp")
class Slow(unittest.TestCase):
    def closed_after(self, it, seconds, trickle=b""):
        """Closes a connection when the hub has closed it, and tells after how long that was; or None if it was not in time."""
        with it:
            began = time.monotonic()
            it.settimeout(0.5)
            while time.monotonic() < began + seconds:
                try:
                    if trickle:
                        it.sendall(trickle)
                    if it.recv(65536) == b"":
                        return time.monotonic() - began
                except TimeoutError:
                    pass
                except OSError:
                    return time.monotonic() - began
        return None

    def test_half_open_and_trickling(self):
        with quick() as hub:
            start = f"Host: 127.0.0.1:{hub.port}\r\nAuthorization: Bearer {hub.tokens['all']}\r\nContent-Type: application/json\r\n"
            silent, trickling, body = (socket.create_connection(("127.0.0.1", hub.port)) for _ in range(3))
            body.sendall(f"POST /batch HTTP/1.1\r\n{start}Content-Length: 1000\r\n\r\n".encode())
            waits = [threading.Thread(target=lambda *waited: closed.append(self.closed_after(*waited)), args=waited)
                     for waited in ((silent, 9), (trickling, 9, b"G"), (body, 9, b" "))]
            closed = []
            [it.start() for it in waits]
            # Beside them, a connection that asks now and then stays.
            again = hub.connect()
            for _ in range(5):
                self.assertEqual(hub.ask("all", "GET", "/views", connection=again)[0], 200)
                time.sleep(1.5)
            again.close()
            [it.join() for it in waits]
            self.assertNotIn(None, closed)

    def test_requests_ahead(self):
        """Half a million requests on one connection, none of whose answers is read."""
        with HubAt() as hub:
            before, one = hub.memory(), f"GET /health HTTP/1.1\r\nHost: 127.0.0.1:{hub.port}\r\n\r\n".encode() * 1000
            for _ in range(5):
                with socket.create_connection(("127.0.0.1", hub.port)) as it, self.assertRaises(OSError):
                    it.settimeout(2)
                    for _ in range(500):
                        it.sendall(one)
            self.assertLess(hub.memory() - before, 60)
            self.assertEqual(hub.ask("root", "GET", "/views")[0], 200)

    def test_a_stream_that_is_not_read(self):
        with quick() as hub:
            it = socket.socket()
            it.setsockopt(socket.SOL_SOCKET, socket.SO_RCVBUF, 1024)
            it.connect(("127.0.0.1", hub.port))
            it.sendall(f"GET /events HTTP/1.1\r\nHost: 127.0.0.1:{hub.port}\r\nAuthorization: Bearer {hub.tokens['all']}\r\n\r\n".encode())
            rows = lambda count: [{"do": "edit", "view": "albums", "remove": [], "add": [{"album": f"b{count}", "quantity": 1}]}]
            [hub.lines("all", rows(count)) for count in range(300)]
            self.assertEqual(hub.ask("all", "GET", "/views")[0], 200)
            it.close()


if __name__ == "__main__":
    unittest.main()
