"""The header of the PROXY protocol, version 2, as HAProxy writes it with `send-proxy-v2-ssl-cn`."""

import socket
import struct

SIGNATURE = b"\r\n\r\n\0\r\nQUIT\n"
#: what the client did: it spoke TLS, and gave a certificate in this connection, or in one before that it continues
TLS, NOW, BEFORE = 1, 2, 4
LOCAL = SIGNATURE + b"\x20\x00\x00\x00"


def part(kind, value):
    return struct.pack(">BH", kind, len(value)) + value


def header(name=None, address="10.0.0.7", port=51234, client=TLS | NOW, verify=0):
    """Of a client at this address, with a certificate of this name, or without one."""
    said = socket.inet_aton(address) + socket.inet_aton("10.0.0.1") + struct.pack(">HH", port, 7101)
    parts = part(0x21, b"TLSv1.3") + (b"" if name is None else part(0x22, name if isinstance(name, bytes) else name.encode()))
    said += part(0x20, struct.pack(">BI", client, verify) + parts)
    return SIGNATURE + b"\x21\x11" + struct.pack(">H", len(said)) + said
