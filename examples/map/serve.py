#!/usr/bin/env python3
"""Shows a running farm in a browser, with no proxy: serves this folder's pages, and passes tiles on to the farm.

    examples/map/serve.py [FARM [PORT]]      as in: serve.py 127.0.0.1:7655 8080, then open http://127.0.0.1:8080/
"""
import http.client, http.server, os, re, sys  # fmt: skip

FARM, PORT = (sys.argv[1:] + ["127.0.0.1:7655", "8080"][len(sys.argv) - 1 :])[:2]
LIBRARIES = "/usr/share/javascript"  # where Debian's libjs-leaflet is


class Page(http.server.SimpleHTTPRequestHandler):
    def handle(self):
        try:
            super().handle()
        except ConnectionError:
            pass  # the browser went on without this tile

    def do_GET(self):
        if not re.fullmatch(r"/[a-z0-9_-]+/\d+/\d+/\d+\.ppm(/status)?", self.path):
            return super().do_GET()
        farm = http.client.HTTPConnection(FARM, timeout=120)
        try:
            farm.request("GET", self.path)
            answer = farm.getresponse()
            status, heads, body = answer.status, answer.getheaders(), answer.read()
        except OSError as fault:
            status, heads, body = 502, [], str(fault).encode()
        finally:
            farm.close()
        self.send_response(status)
        for name, value in heads:
            self.send_header(name, value)
        self.end_headers()
        self.wfile.write(body)

    def translate_path(self, path):
        found = re.match(r"/(leaflet|openlayers)/", path)
        return LIBRARIES + os.path.normpath(path) if found else super().translate_path(path)


os.chdir(os.path.dirname(os.path.abspath(__file__)))
print("http://127.0.0.1:%s/" % PORT, flush=True)
http.server.ThreadingHTTPServer(("127.0.0.1", int(PORT)), Page).serve_forever()
