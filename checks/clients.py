"""Clients of `serve` that are silent, slow or rude: each gets a connection and does its part, and whoever made the
connection closes it."""
import socket
import struct
import threading
import time

from samples import TOKEN

ASK = f"GET /reconcile HTTP/1.1\r\npurse-token: {TOKEN}\r\n\r\n".encode()


def free_port():
    """A port of 127.0.0.1 on which nobody listens."""
    with socket.socket() as free:
        free.bind(("127.0.0.1", 0))
        return free.getsockname()[1]


def connected(port):
    return socket.create_connection(("127.0.0.1", port), timeout=60)


def drip(client, text, seconds):
    """Sends the text a byte at a time, until it is sent or the connection is closed."""

    def send():
        for place in range(len(text)):
            try:
                client.sendall(text[place : place + 1])
            except OSError:
                return
            time.sleep(seconds)

    threading.Thread(target=send, daemon=True).start()


def silent(client):
    pass


def slow(client):
    drip(client, ASK, 1.0)


def never_reads(client):
    client.sendall(ASK)


def close_by_reset(client):
    client.setsockopt(socket.SOL_SOCKET, socket.SO_LINGER, struct.pack("ii", 1, 0))
    client.close()


def reset(client):
    client.sendall(ASK[:20])
    close_by_reset(client)
