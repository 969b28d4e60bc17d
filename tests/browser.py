"""Headless Chromium as a test drives it: by its debugging protocol, over a WebSocket, without a library. A page is opened by its address, asked in JavaScript, pressed keys on, and drawn.
What the page asks for is told by the browser, and no name is looked up outside."""
import base64
import http.client
import json
import os
import re
import shutil
import socket
import struct
import subprocess
import threading
import time

CHROMIUM = shutil.which("chromium")
SWITCHES = ["--headless", "--no-sandbox", "--disable-gpu", "--disable-background-networking", "--no-first-run", "--remote-debugging-port=0", "--host-resolver-rules=MAP * ~NOTFOUND"]


class Browser:
    """One page of Chromium, with the address of each request that it made since `open`, and each line that it wrote to its console."""

    def __init__(self, profile, width=1400, height=860):
        self.calls, self.asked, self.console, self.loaded = 0, [], [], False
        self.process = subprocess.Popen([CHROMIUM, *SWITCHES, f"--user-data-dir={profile}", f"--window-size={width},{height}", "about:blank"], stdout=subprocess.DEVNULL, stderr=subprocess.PIPE, text=True)
        port = next((int(found[1]) for found in (re.search(r"ws://127\.0\.0\.1:(\d+)/", line) for line in self.process.stderr) if found), None)
        if port is None:
            raise OSError(f"Chromium doesn't come up: status {self.process.wait()}")
        threading.Thread(target=self.process.stderr.read, daemon=True).start()
        self.connect(port, self.page_of(port))
        for domain in ("Page", "Runtime", "Network", "Log", "Performance"):
            self.call(f"{domain}.enable")
        self.resize(width, height)

    @staticmethod
    def page_of(port):
        """The path of the page's socket, once there is a page: that the browser listens may be told before that."""
        while True:
            asking = http.client.HTTPConnection("127.0.0.1", port, timeout=120)
            asking.request("GET", "/json")
            pages = [one for one in json.load(asking.getresponse()) if one["type"] == "page"]
            asking.close()
            if pages:
                return pages[0]["webSocketDebuggerUrl"].split(str(port), 1)[1]
            time.sleep(0.05)

    def connect(self, port, path):
        self.socket = socket.create_connection(("127.0.0.1", port), timeout=120)
        key = base64.b64encode(os.urandom(16)).decode()
        self.socket.sendall(f"GET {path} HTTP/1.1\r\nHost: 127.0.0.1:{port}\r\nUpgrade: websocket\r\nConnection: Upgrade\r\nSec-WebSocket-Key: {key}\r\nSec-WebSocket-Version: 13\r\n\r\n".encode())
        self.incoming = self.socket.makefile("rb")
        while self.incoming.readline() not in (b"\r\n", b""):
            pass

    def send(self, message):
        """One text frame, masked as a client's are."""
        data, mask = json.dumps(message).encode(), os.urandom(4)
        length = bytes([0x80 | len(data)]) if len(data) < 126 else b"\xfe" + struct.pack(">H", len(data)) if len(data) < 65536 else b"\xff" + struct.pack(">Q", len(data))
        self.socket.sendall(b"\x81" + length + mask + bytes(one ^ mask[place % 4] for place, one in enumerate(data)))

    def receive(self):
        """One message; what it tells of requests, of the console and of loading is noted."""
        _, length = self.incoming.read(2)
        if length & 127 == 126:
            length, = struct.unpack(">H", self.incoming.read(2))
        elif length & 127 == 127:
            length, = struct.unpack(">Q", self.incoming.read(8))
        message = json.loads(self.incoming.read(length & ((1 << 63) - 1)))
        told, params = message.get("method"), message.get("params", {})
        if told == "Network.requestWillBeSent":
            self.asked.append(params["request"]["url"])
        elif told in ("Runtime.exceptionThrown", "Log.entryAdded", "Runtime.consoleAPICalled"):
            self.console.append(json.dumps(params)[:400])
        elif told == "Page.loadEventFired":
            self.loaded = True
        return message

    def call(self, method, **params):
        self.calls += 1
        self.send({"id": self.calls, "method": method, "params": params})
        while True:
            message = self.receive()
            if message.get("id") == self.calls:
                return message.get("result", message)

    def ask(self, code):
        """The value of an expression in the page."""
        answer = self.call("Runtime.evaluate", expression=code, awaitPromise=True, returnByValue=True)
        if "exceptionDetails" in answer:
            raise ValueError(answer["exceptionDetails"])
        return answer["result"].get("value")

    def seconds(self):
        """How long the page's main thread has run on a processor."""
        told = {one["name"]: one["value"] for one in self.call("Performance.getMetrics")["metrics"]}
        return told["ThreadTime"]

    def open(self, address):
        """Opens a page, and waits until it is loaded; answers how long its thread ran."""
        self.asked.clear()
        self.console.clear()
        self.loaded = False
        self.call("Page.navigate", url=address)
        while not self.loaded:
            self.receive()
        return self.seconds()

    def resize(self, width, height, is_dark=False):
        self.call("Emulation.setDeviceMetricsOverride", width=width, height=height, deviceScaleFactor=1, mobile=False)
        self.call("Emulation.setEmulatedMedia", features=[{"name": "prefers-color-scheme", "value": "dark" if is_dark else "light"}])

    def press(self, key):
        for kind in ("keyDown", "keyUp"):
            self.call("Input.dispatchKeyEvent", type=kind, key=key, code=key)

    def draw(self, file):
        with open(file, "wb") as picture:
            picture.write(base64.b64decode(self.call("Page.captureScreenshot", format="png")["data"]))

    def close(self):
        self.socket.close()
        self.process.terminate()
        self.process.wait()
        self.process.stderr.close()
