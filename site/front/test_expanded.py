"""For tests: stands between eapol_test and the front, and writes the device's EAP types in the expanded
form (RFC 3748, 5.7)."""
import hashlib
import hmac
import socket
import threading

import test_radius as radius


def rewritten(packet):
    """The same Access-Request, with the type of its EAP-Response in the expanded form."""
    pairs, at = [], 20
    while at < len(packet):
        pairs.append((packet[at], packet[at + 2 : at + packet[at + 1]]))
        at += packet[at + 1]
    message = b"".join(v for k, v in pairs if k == 79)
    if len(message) < 6 or message[0] != 2 or message[4] in (1, 3):
        return packet
    body = bytes([254, 0, 0, 0, 0, 0, 0, message[4]]) + message[5:]
    message = message[:2] + (4 + len(body)).to_bytes(2, "big") + body
    pairs = [it for it in pairs if it[0] not in (79, 80)]
    pairs += [(79, message[i : i + 253]) for i in range(0, len(message), 253)] + [(80, bytes(16))]
    body = radius.packed(pairs)
    whole = packet[:2] + (20 + len(body)).to_bytes(2, "big") + packet[4:20] + body
    return whole[:-16] + hmac.new(radius.SECRET, whole, hashlib.md5).digest()


class Between(threading.Thread):
    """A port whose datagrams go on to another, rewritten."""

    def __init__(self, port):
        super().__init__(daemon=True)
        self.here = socket.socket(socket.AF_INET, socket.SOCK_DGRAM)
        self.here.bind(("127.0.0.1", 0))
        self.port, self.there, self.changed = (
            self.here.getsockname()[1],
            radius.opened("127.0.0.1", port),
            0,
        )
        self.start()

    def run(self):
        while True:
            packet, where = self.here.recvfrom(8192)
            sent = rewritten(packet)
            self.changed += sent != packet
            self.there.send(sent)
            self.there.settimeout(5)
            try:
                self.here.sendto(self.there.recv(8192), where)
            except OSError:
                pass
