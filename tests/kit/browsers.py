"""Requests as browsers send them, and the page as it is answered."""

FORBIDDEN = b"HTTP/1.1 403 Forbidden\r\nContent-Length: 0\r\nConnection: close\r\n\r\n"
POLICY = "default-src 'none'; script-src 'unsafe-inline'; style-src 'unsafe-inline'; img-src data:; connect-src 'self'; base-uri 'none'; form-action 'none'; frame-ancestors 'none'"


def page_answer(page):
    """The bytes of the answer that is a page, as the formats have them."""
    fields = [
        "HTTP/1.1 200 OK",
        "Content-Type: text/html; charset=utf-8",
        f"Content-Length: {len(page)}",
        f"Content-Security-Policy: {POLICY}",
        "X-Content-Type-Options: nosniff",
        "Cache-Control: no-cache",
        "Connection: close",
    ]
    return "\r\n".join([*fields, "", ""]).encode() + page


def asked(path, *fields, method="GET", host="shop", version="HTTP/1.1"):
    """A request without a body, with these fields more."""
    lines = [f"{method} {path} {version}"] + ([f"Host: {host}"] if host is not None else []) + list(fields)
    return "\r\n".join([*lines, "", ""]).encode()


def with_fields(request, *fields):
    """A request with these fields more, behind its first line."""
    first, _, rest = request.partition(b"\r\n")
    return b"\r\n".join([first, *[it.encode() for it in fields], rest])
