"""`Broker`: a RabbitMQ in a fresh folder, on free ports of 127.0.0.1, that ends with the process that started it."""

import ctypes
import json
import os
import shutil
import signal
import socket
import subprocess
import time
from collections.abc import Mapping
from pathlib import Path
from typing import Any

from tests.rabbitmq.wire import Closed, Connection

# The tested versions: Debian 12's, and Debian 13's in the root that `make setup` makes; and the program that starts each.
DEBIAN_12, DEBIAN_13 = "3.10.8", "4.0.5"
ROOTS = {DEBIAN_12: Path("/"), DEBIAN_13: Path("/var/lib/maolkint/trixie")}
# Debian's own Python, which has Debian's modules.
PYTHON = "/usr/bin/python3"
SERVER = "usr/lib/rabbitmq/bin/rabbitmq-server"
# Runs a program in a root, where the folder of the broker is mounted for this process alone. The process isn't root's.
MOUNTED = Path("/mnt")
IN_ROOT = f'mount --bind "$1" "$0{MOUNTED}" && root=$0 && shift && exec chroot "$root" setpriv --pdeathsig=KILL "$@"'
IS_ROOT = os.geteuid() == 0
NOBODY = ("--reuid=nobody", "--regid=nogroup", "--clear-groups") if IS_ROOT else ()
UNSHARE = ("unshare", "--mount") if IS_ROOT else ("unshare", "--mount", "--map-root-user")
PLUGINS = "[rabbitmq_shovel,rabbitmq_federation]."
# A virtual host whose messages the broker also reports to amq.rabbitmq.trace.
TRACED = "traced"
# Two processors at most, no waiting in a loop, and its port for other nodes on 127.0.0.1 too.
ERLANG = (
    "+S 2:2 +sbwt none +sbwtdcpu none +sbwtdio none -kernel inet_dist_use_interface {127,0,0,1} "
    f'-rabbit trace_vhosts [<<"{TRACED}">>]'
)
# Names come from no server of names, for which a new connection may wait.
LOOKUP = '{lookup, [file]}. {host, {127,0,0,1}, ["localhost"]}.'
# How often it is tried, since another process may take a port that was free; the seconds for each try, and for an expression.
TRIES, SECONDS = 3, 200


def free_ports(count: int) -> list[int]:
    """Ports that nobody uses now; all are bound at once, so that they differ."""
    sockets = [socket.create_server(("127.0.0.1", 0)) for _ in range(count)]
    ports = [it.getsockname()[1] for it in sockets]
    for it in sockets:
        it.close()
    return ports


def ends_with_us() -> None:
    """Has a child killed as soon as this process ends, however it ends (PR_SET_PDEATHSIG); what it execs keeps that."""
    ctypes.CDLL(None).prctl(1, signal.SIGKILL, 0, 0, 0)


def definitions(port: int) -> dict[str, Any]:
    """What the broker begins with: its virtual hosts, one user, a shovel, and an exchange that is federated."""
    uri = f"amqp://127.0.0.1:{port}"
    shovel: dict[str, Any] = {"src-protocol": "amqp091", "src-uri": uri, "src-queue": "shovel from"}
    shovel |= {"dest-protocol": "amqp091", "dest-uri": uri, "dest-queue": "shovel to"}
    shovel |= {"dest-add-forward-headers": True, "dest-add-timestamp-header": True, "reconnect-delay": 1}
    upstream = {"uri": uri, "exchange": "upstream", "reconnect-delay": 1}
    parameters = (("federation-upstream", "up", upstream), ("shovel", "moving", shovel))
    anything = {"configure": ".*", "write": ".*", "read": ".*"}
    federated = {"vhost": "/", "name": "federated", "pattern": "^downstream$", "apply-to": "exchanges"}
    return {
        "vhosts": [{"name": it} for it in ("/", TRACED)],
        "users": [{"name": "guest", "password": "guest", "tags": "administrator"}],
        "permissions": [{"user": "guest", "vhost": it, **anything} for it in ("/", TRACED)],
        "parameters": [{"vhost": "/", "component": kind, "name": name, "value": it} for kind, name, it in parameters],
        "policies": [{**federated, "definition": {"federation-upstream": "up"}}],
    }


class Broker:
    """A running broker; a with statement ends it."""

    home: Path
    environment: Mapping[str, str]
    # how long it took until it was ready
    seconds: float

    def __init__(self, folder: Path, version: str, root: Path | None = None) -> None:
        """The broker of a version, or that of another root, which is taken for that version."""
        self.folder, self.version, self.root, self.port = folder, version, root or ROOTS[version], 0
        self.processes: list[subprocess.Popen[bytes]] = []

    def __enter__(self) -> "Broker":
        for number in range(TRIES):
            begun = time.time()
            self.start(self.folder / f"broker{number}")
            while time.time() < begun + SECONDS and not self.has_ended():
                if self.is_ready():
                    self.seconds = time.time() - begun
                    return self
                time.sleep(0.2)
            self.end()
        raise RuntimeError(f"the broker didn't start: {self.printed()}")

    def __exit__(self, *_: object) -> None:
        self.end()

    def start(self, folder: Path) -> None:
        self.home = folder
        folder.mkdir()
        # the same folder in the broker's root
        home = folder if self.root == Path("/") else MOUNTED
        self.port, between, names = free_ports(3)
        (folder / "plugins").write_text(PLUGINS)
        (folder / "inetrc").write_text(LOOKUP)
        (folder / "definitions.json").write_text(json.dumps(definitions(self.port)))
        settings = ["log.file = false", "log.console = true", "log.console.level = critical"]
        (folder / "rabbitmq.conf").write_text("\n".join([f"load_definitions = {home}/definitions.json", *settings, ""]))
        (folder / "rabbitmq-env.conf").touch()
        if IS_ROOT and home != folder:
            for it in (folder, *folder.iterdir()):
                shutil.chown(it, "nobody", "nogroup")
        # no variable of the machine's counts; in HOME Erlang makes its cookie
        self.environment = {
            "PATH": "/usr/sbin:/usr/bin:/sbin:/bin", "LC_ALL": "C.UTF-8", "HOME": f"{home}", "TMPDIR": f"{home}",
            "RABBITMQ_NODENAME": f"maolkint{self.port}@localhost", "RABBITMQ_NODE_IP_ADDRESS": "127.0.0.1",
            "RABBITMQ_NODE_PORT": f"{self.port}", "RABBITMQ_DIST_PORT": f"{between}",
            "RABBITMQ_BASE": f"{home}", "RABBITMQ_MNESIA_BASE": f"{home}/mnesia", "RABBITMQ_LOG_BASE": f"{home}/log",
            "RABBITMQ_PID_FILE": f"{home}/pid", "RABBITMQ_ENABLED_PLUGINS_FILE": f"{home}/plugins",
            "RABBITMQ_CONF_ENV_FILE": f"{home}/rabbitmq-env.conf", "RABBITMQ_CONFIG_FILE": f"{home}/rabbitmq.conf",
            "RABBITMQ_ADVANCED_CONFIG_FILE": f"{home}/none.config", "RABBITMQ_GENERATED_CONFIG_DIR": f"{home}/config",
            "RABBITMQ_FEATURE_FLAGS_FILE": f"{home}/feature_flags", "RABBITMQ_SERVER_ADDITIONAL_ERL_ARGS": ERLANG,
            "ERL_EPMD_ADDRESS": "127.0.0.1", "ERL_EPMD_PORT": f"{names}", "ERL_INETRC": f"{home}/inetrc",
            "ERL_CRASH_DUMP": f"{home}/erl_crash.dump",
            # its script becomes the broker then, instead of a parent of it
            "RUNNING_UNDER_SYSTEMD": "true",
        }  # fmt: skip
        self.run("epmd", "-port", names, "-address", "127.0.0.1")
        self.run(f"/{SERVER}")

    def words(self, *words: object) -> list[str]:
        """The command that runs a program in the broker's root."""
        if self.root == Path("/"):
            return [str(it) for it in words]
        return [str(it) for it in (*UNSHARE, "sh", "-c", IN_ROOT, self.root, self.home, *NOBODY, *words)]

    def run(self, *words: object) -> None:
        """Starts a process that ends with this one."""
        how: dict[str, Any] = {"cwd": self.home, "env": self.environment, "preexec_fn": ends_with_us}
        with open(self.home / "printed", "ab") as out:
            how |= {"stdin": subprocess.DEVNULL, "stdout": out, "stderr": out, "start_new_session": True}
            self.processes.append(subprocess.Popen(self.words(*words), **how))

    def has_ended(self) -> bool:
        return any(it.poll() is not None for it in self.processes)

    def printed(self) -> str:
        """The end of what it printed."""
        return (self.home / "printed").read_text(errors="replace")[-3000:]

    def is_ready(self) -> bool:
        """Whether it takes connections."""
        try:
            self.connection().close()
        except (OSError, Closed):
            return False
        return True

    def connection(self, **how: Any) -> Connection:
        return Connection(self.port, **how)

    def asked(self, expression: str) -> str:
        """What an Erlang expression prints in a node next to the broker, in which R(module, function, arguments) is one there.

        As `rabbitmqctl eval`, which takes several times as long.
        """
        call = f"R = fun(M, F, A) -> rpc:call('{self.environment['RABBITMQ_NODENAME']}', M, F, A) end"
        words = ["erl", "-noinput", "-hidden", "-boot", "no_dot_erlang", "-start_epmd", "false"]
        words += ["-sname", "asking@localhost", "-kernel", "inet_dist_use_interface", "{127,0,0,1}"]
        words += ["-eval", f"{call}, {expression}, halt()."]
        how: dict[str, Any] = {"env": self.environment, "cwd": self.home, "capture_output": True, "text": True}
        done = subprocess.run(self.words(*words), **how, timeout=SECONDS)
        if done.returncode:
            raise RuntimeError(f"erl: {done.stdout[-1000:]}{done.stderr[-1000:]}")
        return str(done.stdout).strip()

    def end(self) -> None:
        for it in reversed(self.processes):
            it.kill()
            it.wait()
        self.processes.clear()
