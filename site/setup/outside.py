"""Looks at a site of radacctd from another machine: python3 outside.py HOST [LOCAL-ADDRESS].

A port of RADIUS answers nothing to a machine that is no client: the site's list of faults then
names its address, unless a firewall is between.
"""

import socket
import ssl
import sys


def page(host):
    try:
        with socket.create_connection((host, 443), 10) as it, \
                ssl.create_default_context().wrap_socket(it, server_hostname=host):
            return "443/tcp is open"
    except ssl.SSLCertVerificationError as why:
        return f"443/tcp is open, and browsers warn: {why.verify_message}"
    except OSError as why:
        return f"443/tcp is shut: {why}. Let browsers through, and see what the name leads to"


def packet(host, own, port, code):
    """A request without a secret: the site drops it, and says from where it came."""
    with socket.socket(socket.AF_INET6 if ":" in host else socket.AF_INET, socket.SOCK_DGRAM) as it:
        it.settimeout(2)
        try:
            it.bind((own, 0))
            it.connect((host, port))
            it.send(bytes([code, 1, 0, 23]) + bytes(16) + b"\x01\x03?")
            it.recv(4096)
            return f"{port}/udp is open"
        except TimeoutError:
            return (f"{port}/udp: sent from {it.getsockname()[0]}, no answer. On the site `radacctl"
                    " setup --check` is to name that address: if not, a firewall is between")
        except OSError as why:
            return f"{port}/udp is shut: {why}. Nothing listens there, or a firewall refuses"


if __name__ == "__main__":
    if len(sys.argv) not in (2, 3):
        sys.exit(__doc__)
    to, own = [*sys.argv[1:], ""][:2]
    lines = [page(to), packet(to, own, 1812, 1), packet(to, own, 1813, 4)]
    print("\n".join(lines))
    sys.exit(any("shut" in it for it in lines))
