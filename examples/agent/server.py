# Serves a folder over HTTP on 127.0.0.1, or over TLS where a certificate with its key is given, and logs each request.
#
#   server.py FOLDER PORT-FILE [CERTIFICATE]
#
# The number of its port is written to PORT-FILE. What stands below /slow is sent once the file `go` is in FOLDER, and what
# stands below /endless never ends and has no length.
import functools
import http.server
import os
import ssl
import sys
import time

folder, port_file = sys.argv[1:3]


class Handler(http.server.SimpleHTTPRequestHandler):
    def do_GET(self):
        if self.path.startswith("/slow/"):
            while not os.path.exists(os.path.join(folder, "go")):
                time.sleep(0.05)
        if self.path.startswith("/endless/"):
            self.send_response(200)
            self.end_headers()
            while True:
                self.wfile.write(bytes(1 << 20))
        super().do_GET()


server = http.server.ThreadingHTTPServer(("127.0.0.1", 0), functools.partial(Handler, directory=folder))
if len(sys.argv) > 3:
    context = ssl.SSLContext(ssl.PROTOCOL_TLS_SERVER)
    context.load_cert_chain(sys.argv[3])
    server.socket = context.wrap_socket(server.socket, server_side=True)
with open(port_file + ".new", "w") as file:
    file.write(str(server.server_address[1]))
os.rename(port_file + ".new", port_file)
server.serve_forever()
