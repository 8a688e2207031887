"""Answers each request with the contents of a file."""

import os
import sys
from http.server import BaseHTTPRequestHandler, HTTPServer


class Greeter(BaseHTTPRequestHandler):
    def do_GET(self):
        with open(sys.argv[1], encoding="utf-8") as message:
            answer = f"hello from python, {message.read()}".encode()
        self.send_response(200)
        self.send_header("Content-Length", str(len(answer)))
        self.end_headers()
        self.wfile.write(answer)


def main():
    HTTPServer(("127.0.0.1", int(os.environ["PORT"])), Greeter).serve_forever()
