#!/usr/bin/env python3
"""A front to try custody with, in place of nginx: it buffers requests, in python's ssl and sockets. It isn't made for use.

    python3 tools/front.py [CERT KEY] [PORT [TO]]    answers https (without CERT and KEY http) at PORT (8443) of 127.0.0.1,
                                                     asks TO (8090)

Each request is read first, a chunked body too, and sent on over a connection of its own with its Content-Length. A user name of
Basic auth that has a token's form becomes `Authorization: Bearer`, as by docs/operating/nginx.conf. The reply goes back as it
comes, and the connection ends. If nobody answers at TO, the reply is 502. A body of more than 16 MiB is answered 413.
"""

import base64
import re
import socket
import socketserver
import ssl
import sys

# A state has at most 16,777,216 bytes.
LIMIT = 16_777_216
LEFT_OUT = {"connection", "content-length", "expect", "transfer-encoding"}
# A token, as the user name of Basic auth.
TOKEN = re.compile(rb"([a-z][a-z0-9-]*\.[A-Za-z0-9]+):")
# What is still read of a request that is refused, so that its sender reads the reply.
DRAINED = 4 * LIMIT


class Bad(Exception):
    status = b"400 Bad Request"


class TooLarge(Bad):
    status = b"413 Content Too Large"


def read_line(stream):
    line = stream.readline(65536)
    if not line.endswith(b"\n"):
        raise Bad
    return line.rstrip(b"\r\n").decode("latin-1")


def read_chunks(stream):
    body = b""
    while True:
        size = int(read_line(stream).split(";")[0], 16)
        if size == 0:
            while read_line(stream):
                pass
            return body
        body += stream.read(size)
        if read_line(stream):
            raise Bad
        if len(body) > LIMIT:
            raise TooLarge


def bearer(name, value):
    """A field, with the user name of Basic auth as a bearer token."""
    scheme, _, text = value.partition(" ")
    if name.lower() == "authorization" and scheme.lower() == "basic" and (token := TOKEN.match(base64.b64decode(text))):
        return name, "Bearer " + token[1].decode()
    return name, value


def read_request(stream, link):
    """The request, with its length; an empty one where the client leaves."""
    first = stream.readline(65536)
    if not first:
        return b""
    fields = []
    while line := read_line(stream):
        name, _, value = line.partition(":")
        fields.append((name.strip(), value.strip()))
    given = {name.lower(): value for name, value in fields}
    if given.get("expect", "").lower() == "100-continue":
        link.sendall(b"HTTP/1.1 100 Continue\r\n\r\n")
    if "chunked" in given.get("transfer-encoding", "").lower():
        body = read_chunks(stream)
    else:
        length = int(given.get("content-length", 0))
        if length > LIMIT:
            raise TooLarge
        body = stream.read(length)
    kept = [bearer(name, value) for name, value in fields if name.lower() not in LEFT_OUT]
    kept += [("Content-Length", str(len(body))), ("Connection", "close")]
    head = first.rstrip(b"\r\n") + b"\r\n" + "".join(f"{n}: {v}\r\n" for n, v in kept).encode("latin-1") + b"\r\n"
    return head + body


class Peer(socketserver.BaseRequestHandler):
    def handle(self):
        try:
            link = self.request
            if self.server.context:
                link = self.server.context.wrap_socket(link, server_side=True)
        except (ssl.SSLError, OSError):
            return
        try:
            with link.makefile("rb") as stream:
                request = read_request(stream, link)
            if request:
                self.send_on(request, link)
            if self.server.context:
                link.unwrap()
        except (Bad, ValueError) as fault:
            self.refuse(link, getattr(fault, "status", Bad.status))
        except OSError:
            pass

    def refuse(self, link, status):
        try:
            link.sendall(b"HTTP/1.1 " + status + b"\r\nContent-Length: 0\r\nConnection: close\r\n\r\n")
            left = DRAINED
            link.settimeout(5)
            while left > 0 and (piece := link.recv(65536)):
                left -= len(piece)
        except OSError:
            pass

    def send_on(self, request, link):
        self.send_to(self.server.to, request, link)

    def send_to(self, port, request, link):
        """To a port, or to a Unix socket by its path."""
        back = socket.socket(socket.AF_UNIX if isinstance(port, str) else socket.AF_INET)
        back.settimeout(130)
        try:
            back.connect(port if isinstance(port, str) else ("127.0.0.1", port))
        except OSError:
            back.close()
            link.sendall(self.server.away)
            return
        with back:
            back.sendall(request)
            while piece := back.recv(65536):
                link.sendall(piece)


class Front(socketserver.ThreadingTCPServer):
    allow_reuse_address = True
    daemon_threads = True
    # The reply if nobody answers at the port.
    away = b"HTTP/1.1 502 Bad Gateway\r\nContent-Length: 0\r\nConnection: close\r\n\r\n"


def main():
    files = [word for word in sys.argv[1:] if not word.isdigit()]
    ports = [int(word) for word in sys.argv[1 + len(files):] if word.isdigit()]
    if len(files) not in (0, 2) or len(files) + len(ports) != len(sys.argv) - 1 or len(ports) > 2:
        sys.exit(__doc__)
    port, to = ports + [8443, 8090][len(ports):]
    with Front(("127.0.0.1", port), Peer) as front:
        front.context = None
        if files:
            front.context = ssl.SSLContext(ssl.PROTOCOL_TLS_SERVER)
            front.context.load_cert_chain(*files)
        front.to = to
        front.serve_forever()


if __name__ == "__main__":
    main()
