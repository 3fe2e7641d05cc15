"""A browser by WebDriver, which is HTTP and JSON."""
import json
import os
import socket
import subprocess
import time
import urllib.request


class Browser:
    def __init__(self, size=(1440, 900)):
        with socket.socket() as free:
            free.bind(("127.0.0.1", 0))
            self.port = free.getsockname()[1]
        self.program = subprocess.Popen(["chromedriver", f"--port={self.port}"], stdout=subprocess.DEVNULL, stderr=subprocess.DEVNULL)
        words = ["--headless=new", "--disable-gpu", "--hide-scrollbars", "--force-device-scale-factor=1", f"--window-size={size[0]},{size[1]}"]
        words += ["--no-sandbox"] if os.geteuid() == 0 else []
        options = {"goog:chromeOptions": {"args": words}, "goog:loggingPrefs": {"browser": "ALL"}, "timeouts": {"script": 280000}}
        self.session = ""
        self.session = "/session/" + self.patient("/session", {"capabilities": {"alwaysMatch": options}})["sessionId"]

    def patient(self, path, body):
        for _ in range(120):
            try:
                return self.call("POST", path, body)
            except OSError:
                time.sleep(0.5)
        raise SystemExit("chromedriver does not answer")

    def call(self, method, path, body=None):
        data = None if body is None else json.dumps(body).encode()
        request = urllib.request.Request(f"http://127.0.0.1:{self.port}{self.session}{path}", data, {"Content-Type": "application/json"}, method=method)
        with urllib.request.urlopen(request, timeout=300) as answer:
            return json.load(answer)["value"]

    def open(self, address):
        self.call("POST", "/url", {"url": "about:blank"})
        self.call("POST", "/url", {"url": address})

    def ask(self, script, *words):
        return self.call("POST", "/execute/sync", {"script": script, "args": list(words)})

    def wait(self, script, *words):
        """A script that gives its answer to `done`."""
        return self.call("POST", "/execute/async", {"script": "const done = arguments[arguments.length - 1];" + script, "args": list(words)})

    def press(self, key):
        self.call("POST", "/actions", {"actions": [{"type": "key", "id": "k", "actions": [{"type": "keyDown", "value": key}, {"type": "keyUp", "value": key}]}]})

    def protocol(self, command, **words):
        return self.call("POST", "/goog/cdp/execute", {"cmd": command, "params": words})

    def complaints(self):
        return [entry["message"] for entry in self.call("POST", "/se/log", {"type": "browser"})]

    def close(self):
        try:
            self.call("DELETE", "")
        finally:
            self.program.terminate()
            self.program.wait()
