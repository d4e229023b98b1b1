"""A server and a mount of its folder for a test, both in a folder of their own, and the tally of what came out."""
import errno
import os
import shutil
import signal
import subprocess
import sys
import tempfile
import threading
import time

TOP = os.path.dirname(os.path.dirname(os.path.dirname(os.path.dirname(os.path.abspath(__file__)))))
sys.path.insert(0, os.path.join(TOP, "clients"))
import kazdrin  # noqa: E402

SAMPLES = "guard meter shift hold carry stay".split()


class Tally:
    """What passed, and what failed."""

    def __init__(self):
        self.passed = 0
        self.failed = 0
        self.lock = threading.Lock()

    def note(self, name, got, wanted):
        """Counts one check: a value that is wanted, or a condition of it."""
        is_right = wanted(got) if callable(wanted) else got == wanted
        with self.lock:
            if is_right:
                self.passed += 1
            else:
                self.failed += 1
                print(f"mount: {name}: {got!r:.300}" + ("" if callable(wanted) else f", and not {wanted!r:.300}"), flush=True)

    def call(self, name, wanted, function, *words):
        """Counts a call: what it gives, or the name of its errno."""
        self.note(name, outcome(function, *words), wanted)


def outcome(function, *words):
    """What a call gives, or the name of the errno that it fails with."""
    try:
        return function(*words)
    except OSError as error:
        return errno.errorcode.get(error.errno, str(error))


def until(condition, seconds=60):
    """Waits until it is so, at most so long: whether it is."""
    end = time.monotonic() + seconds
    while not condition():
        if time.monotonic() > end:
            return False
        time.sleep(0.01)
    return True


# The calls that read a file that is open, by their numbers here.
READS = {"x86_64": ("0", "17"), "aarch64": ("63", "67")}.get(os.uname().machine, ())


def is_reading(path, task):
    """Whether a thread, a folder of /proc, is inside of a call that reads that file."""
    try:
        with open(f"{task}/syscall", encoding="ascii") as file:
            words = file.read().split()
        return words[0] in READS and os.readlink(f"{task}/fd/{int(words[1], 16)}") == path
    except (OSError, ValueError, IndexError):
        return False


def wait_for_reads(path, *tasks):
    """Each of them reads, and has had time to come to the server: where reads can't be seen, time is all."""
    if READS and os.path.exists("/proc/self/syscall"):
        real = os.path.realpath(path)
        until(lambda: all(is_reading(real, task) for task in tasks))
    time.sleep(0.3)


class Ground:
    """A server over an empty folder, with a mount at `mount`, which is `shared` unless it is said to be alone. `{host}` in an option is that folder. After `patience` seconds both are killed, so that nothing waits for ever."""

    def __init__(self, tally, tools, *options, patience=600, place=None, server=None, alone=False):
        self.tally = tally
        self.tools = tools
        self.server_command = server or [tools.server]
        self.room = tempfile.mkdtemp(prefix="kazdrin-", dir=place or ("/dev/shm" if os.path.isdir("/dev/shm") else None))
        self.host, self.mount, self.socket = (os.path.join(self.room, name) for name in ("host", "mount", "socket"))
        os.mkdir(self.host)
        os.mkdir(self.mount)
        self.options = options + (() if alone else ("shared",))
        self.killed = False
        self.server = self.mounted = None
        self.watch = threading.Timer(patience, self.kill)
        self.watch.daemon = True

    def __enter__(self):
        self.watch.start()
        self.start_server()
        self.start_mount()
        return self

    def start_server(self):
        """A server, which takes connections once this is done."""
        if os.path.exists(self.socket):
            os.remove(self.socket)
        self.server_output = open(os.path.join(self.room, "server.out"), "w")
        self.server = subprocess.Popen(self.server_command + [self.host, self.socket], stdout=self.server_output, stderr=subprocess.STDOUT)
        if not until(self.is_served):
            raise RuntimeError("the server takes no connections")

    def is_served(self):
        """Whether the server has said that it takes connections: its socket is there before that."""
        with open(self.server_output.name, "rb") as said:
            return b"ready" in said.read().split()

    def start_mount(self):
        """A mount, which is there once this is done."""
        options = ["-o", ",".join(self.options).format(host=self.host)] if self.options else []
        self.mount_errors = open(os.path.join(self.room, "mount.err"), "w+")
        self.mounted = subprocess.Popen(self.tools.mount + [self.socket, self.mount, "-f"] + options, stdout=self.mount_errors, stderr=subprocess.STDOUT)
        if not until(lambda: self.is_mounted() or self.mounted.poll() is not None) or self.mounted.poll() is not None:
            raise RuntimeError(f"no mount: {open(self.mount_errors.name).read()}")

    def kill(self):
        """Ends both, and lets go of whoever waits."""
        self.killed = True
        for process in (self.mounted, self.server):
            if process and process.poll() is None:
                process.send_signal(signal.SIGKILL)

    def kill_server(self):
        """Ends the server without a word."""
        self.server.kill()
        self.server.wait()

    def is_mounted(self):
        """Whether the mount point is one, be anybody there or not."""
        return any(line.split()[1] == self.mount for line in open("/proc/mounts"))

    def is_held_elsewhere(self):
        """Whether another process has a mount namespace that was made meanwhile: the mount lives on there."""
        return any(self.is_held_by(process) for process in filter(str.isdigit, os.listdir("/proc")))

    def is_held_by(self, process):
        """Whether a process sees the mount in a namespace of its own."""
        try:
            own = os.readlink(f"/proc/{process}/ns/mnt") != os.readlink("/proc/self/ns/mnt")
            with open(f"/proc/{process}/mountinfo", encoding="utf-8") as mounts:
                return own and any(line.split()[4] == self.mount for line in mounts)
        except OSError:  # it has ended, or isn't ours
            return False

    def unmount(self):
        """Ends the mount, and looks how it ended."""
        if self.mounted is None:
            return
        if not until(lambda: not self.is_mounted() or subprocess.run(["fusermount3", "-u", self.mount], capture_output=True).returncode == 0, 20):
            subprocess.run(["fusermount3", "-u", "-z", self.mount], capture_output=True)
            self.tally.note("unmount", "busy", "done")
        until(lambda: self.mounted.poll() is not None or not self.is_held_elsewhere(), 300)
        try:
            status = self.mounted.wait(60)
        except subprocess.TimeoutExpired:
            self.mounted.kill()
            status = "hangs"
        self.mounted = None
        # valgrind warns of calls of the system that it doesn't know by lines that begin so
        words = "".join(line for line in open(self.mount_errors.name) if not line.startswith("--"))
        self.tally.note("end of the mount", (status, words), (0, ""))

    def __exit__(self, kind, *_):
        self.unmount()
        self.watch.cancel()
        if self.server.poll() is None:
            self.server.kill()
        self.server.wait()
        self.tally.note("patience", self.killed, False)
        shutil.rmtree(self.room, ignore_errors=True)

    def at(self, name):
        """The path of a name in the mount."""
        return os.path.join(self.mount, name)

    def below(self, name):
        """The path of a name in the server's folder."""
        return os.path.join(self.host, name)

    def client(self, timeout=60):
        """A connection of its own with the server."""
        return kazdrin.Client(self.socket, timeout)

    def ask(self, method, *words):
        """One request by a connection of its own: the reply's status and information."""
        with self.client() as client:
            reply = getattr(client, method)(*words)
            return reply.status, reply.information

    def attach(self, **filters):
        """Loads samples and attaches each at an altitude: a dictionary of the instances."""
        instances = {}
        for name, altitude in filters.items():
            status, number = self.ask("load", name)
            assert status == 0, (name, status)
            status, instances[name] = self.ask("attach", number, 0, name, str(altitude))
            assert status == 0, (name, status)
        return instances

    def flush(self, name):
        """A flush of a file by another client: it lets go of what `hold` holds."""
        with self.client() as client:
            created = client.create(name, kazdrin.EXISTING)
            return client.flush(created.information).status if created.status == 0 else created.status


def shifted(data, by=1):
    """What the filter `shift` keeps of bytes."""
    return bytes((byte + by) % 256 for byte in data)


def whole(path):
    """All bytes of a file."""
    with open(path, "rb") as file:
        return file.read()


def put(path, data):
    """Makes or cuts a file, and writes it."""
    with open(path, "wb", buffering=0) as file:
        return file.write(data)
