"""A gateway as its unit, in a root that tests/packages has booted; and disks that can be full."""
import contextlib
import os
import re
import shutil
import signal
import subprocess

from .support import Gateway, until

UNIT = '/lib/systemd/system/spmat-gateway.service'
OWN = os.path.basename(UNIT)


def run(*words):
    """Runs a command; what it prints."""
    return subprocess.run(words, stdout=subprocess.PIPE, text=True, check=True,
                          timeout=150).stdout.strip()


class Main:
    """The main process of a unit."""

    def __init__(self, unit):
        self._unit = unit

    @property
    def pid(self):
        return int(run('systemctl', 'show', '-p', 'MainPID', '--value', self._unit))

    def send_signal(self, number):
        process = self.pid
        if process:                                # it is being started again otherwise
            with contextlib.suppress(ProcessLookupError):
                os.kill(process, number)


class Unit(Gateway):
    """The unit of the package. One of another name has a copy of it, with folders of its own.
    systemd starts it again after a kill."""

    def __init__(self, _, name='spmat-gateway', **keys):
        super().__init__('/etc', name, engine_socket='/run/spmat-engine.sock',
                         gateway_state='/var/lib/' + name,
                         gateway_admin='/run/%s/admin.sock' % name, **keys)
        del self.tables['engine']['command']       # the package's own
        self.set()
        self.state, self.admin = ('%s/%s' % pair for pair in (('/var/lib', name),
                                                              ('/run', name + '/admin.sock')))
        self._unit, self.process = name + '.service', Main(name + '.service')
        self._is_started = False
        shutil.copy(keys['tls_certificate'], '/etc/%s.pem' % name)
        shutil.chown('/etc/%s.pem' % name, 'spmat-gateway')
        self.set(tls_certificate='/etc/%s.pem' % name)
        if self._unit != OWN:
            with open(UNIT, encoding='utf-8') as file:
                text = re.sub(r'(?m)^((?:State|Runtime)Directory=).*', r'\1' + name, file.read())
            text = re.sub(r'(spmat-gateway (?:check|serve))$', r'\1 --config ' + self.file, text,
                          flags=re.M)
            with open('/run/systemd/system/' + self._unit, 'w', encoding='utf-8') as file:
                file.write(text)

    def set_clock_by(self, path, library):
        folder = '/run/systemd/system/%s.d' % self._unit
        os.makedirs(folder, exist_ok=True)
        with open(folder + '/clock.conf', 'w', encoding='ascii') as file:
            file.write('[Service]\nEnvironment=LD_PRELOAD=%s CLOCK_BY=%s\n' % (library, path))

    def start(self, ready=True):
        if not self._is_started:                   # after a kill systemd starts it
            run('systemctl', 'daemon-reload')
            run('systemctl', 'restart', self._unit)
            self._is_started = True
        until('the unit is ready', self.is_ready)

    def is_ready(self):
        with contextlib.suppress(OSError):
            return self.get('/readyz')[0] == 200
        return False

    def kill(self):
        self.process.send_signal(signal.SIGKILL)

    def stop(self):
        run('systemctl', 'stop', self._unit)

    def said(self):
        return run('journalctl', '-b', '-o', 'cat', '-u', self._unit)


class Disk:
    """A small file system in a folder, which can be full."""

    def __init__(self, path, megabytes):
        self.path = path
        os.makedirs(path, exist_ok=True)
        run('mount', '-t', 'tmpfs', '-o', 'mode=755,size=%dm' % megabytes, 'tmpfs', path)

    @contextlib.contextmanager
    def full(self):
        """It has no room, for a while."""
        path = os.path.join(self.path, 'filler')
        try:
            with contextlib.suppress(OSError), open(path, 'wb', buffering=0) as file:
                while True:
                    file.write(bytes(1 << 16))
            with contextlib.suppress(OSError), open(path, 'ab', buffering=0) as file:
                while True:
                    file.write(bytes(64))
            yield
        finally:
            os.unlink(path)

    def close(self):
        run('umount', '-l', self.path)
