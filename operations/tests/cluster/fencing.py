"""The fence device of each machine: OpenIPMI's `ipmi_sim`, which the agent `fence_ipmilan` asks to cut the power of the
machine and to switch it on again. The rig does it, by killing QEMU and by starting it."""
import contextlib
import os
import signal
import socketserver
import subprocess
import threading

from tests.system.program import bytes_of, put_bytes

HERE = os.path.dirname(os.path.realpath(__file__))
ADDRESSES = {"alpha": "192.0.2.1", "beta": "192.0.2.2"}  # as the page has them


class Bmc:
    """Of one machine. `silence` has it answer nothing, like one whose network is gone."""

    def __init__(self, folder, name):
        self.folder = f"{folder}/{name}.bmc"
        os.makedirs(self.folder)
        address = ADDRESSES[name]
        subprocess.run(["ip", "address", "replace", f"{address}/32", "dev", "lo"], check=True)
        power = f"{HERE}/power {folder}/power {name}"
        text = bytes_of(f"{HERE}/ipmi.conf").decode()
        for word, value in (("NAME", name), ("ADDRESS", address), ("POWER", power)):
            text = text.replace(word, value)
        put_bytes(f"{self.folder}/conf", text.encode())
        words = ["ipmi_sim", "-c", f"{self.folder}/conf", "-f", f"{HERE}/ipmi.emu", "-s", self.folder, "-n"]
        with open(f"{self.folder}/log", "wb") as log:
            self.process = subprocess.Popen(
                ["setpriv", "--pdeathsig", "KILL", *words], stdin=subprocess.DEVNULL, stdout=log, stderr=log)

    def silence(self):
        self.process.send_signal(signal.SIGSTOP)

    def speak(self):
        self.process.send_signal(signal.SIGCONT)

    def end(self):
        self.process.kill()
        self.process.wait()


class Power:
    """Listens for the script `power`. `is_on(name)` says whether a machine has power, `switch(name, on)` gives it power
    or cuts it. One thread does it for all questions, as QEMU ends with the thread that has started it."""

    def __init__(self, folder, is_on, switch):
        self.is_on = is_on
        self.switch = switch
        self.lock = threading.Lock()  # held while the power of a machine changes
        power = self

        class Handler(socketserver.StreamRequestHandler):
            """Of one question."""

            def handle(self):
                with contextlib.suppress(BrokenPipeError):
                    self.wfile.write(power.answer(*self.rfile.readline().decode().split()).encode())

        server = socketserver.UnixStreamServer(f"{folder}/power", Handler)
        threading.Thread(target=server.serve_forever, daemon=True).start()

    def answer(self, name, what, *words):
        """The status, and what is printed: for `get` each name with its value."""
        with self.lock:
            if what == "get":
                values = {"power": int(self.is_on(name))}
                return "0\n" + "".join(f"{word}:{values.get(word, 0)}\n" for word in words)
            if what == "set" and words[0] == "power":
                self.switch(name, words[1] != "0")
            return "0\n"
