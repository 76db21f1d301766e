#!/bin/bash
# What tests/packages runs in a fresh root that was booted, as root: the units of the package, for users who may and who may not.
# A line for each thing that was tried, `ok` or `FAILED`.
set -u
tried() {
    local what=$1
    shift
    if "$@" > /root/said 2>&1; then echo "ok: $what"; else echo "FAILED: $what"; tail -n 4 /root/said | sed 's/^/    /'; fi
}
# as USER: a session at the socket file that answers 42
session() { runuser -u "$1" -- python3 -c '
import spmat, sys
with spmat.Session.connect("/run/spmat.sock", timeout=20) as s:
    sys.exit(s.from_triples([(0, 0, 41)]).apply("plus", right=1).to_list() != [42])'; }
refused() { runuser -u "$1" -- python3 -c '
import spmat
try:
    spmat.Session.connect("/run/spmat.sock", timeout=20)
except PermissionError as fault:
    assert "no connection to /run/spmat.sock: Permission denied" in str(fault), fault
else:
    raise SystemExit("was let in")'; }
seats() { python3 -c '
import spmat
held = [spmat.Session.connect("/run/spmat.sock", timeout=20) for _ in range(16)]
budgets = [s.budget() for s in held]
assert len(set(budgets)) == 1 and budgets[0].left == 10 ** 12, budgets
try:
    spmat.Session.connect("/run/spmat.sock", timeout=20)
except spmat.Closed as fault:
    assert "before a first answer" in str(fault), fault
else:
    raise SystemExit("a seventeenth was let in")
for s in held:
    s.close()'; }
flood() { python3 -c '
import socket
for _ in range(600):
    s = socket.socket(socket.AF_UNIX)
    s.connect("/run/spmat.sock")
    s.close()'; sleep 3; systemctl is-active spmat.socket && session anna; }
limits() { python3 -c '
import spmat
with spmat.Session.connect("/run/spmat.sock", timeout=60) as s:
    held = []
    try:
        for _ in range(20):
            held.append(s.from_text("%%MatrixMarket matrix coordinate integer general\n16777216 1 0\n"))
    except spmat.OutOfMemory:
        pass
    print(len(held))
    assert 8 < len(held) < 16, len(held)
    assert s.budget().spent == 0'; }
goes_on() { python3 -c '
import spmat, subprocess
with spmat.Session.connect("/run/spmat.sock", timeout=20) as s:
    subprocess.run(["systemctl", "stop", "spmat.socket"], check=True)
    assert s.from_triples([(0, 0, 41)]).apply("plus", right=1).to_list() == [42]
    try:
        spmat.Session.connect("/run/spmat.sock", timeout=5)
    except OSError:
        pass
    else:
        raise SystemExit("a new one was let in")'; }
served() { python3 -c '
import spmat
with spmat.Session.connect(timeout=20) as s:
    assert s.from_triples([(0, 0, 41)]).apply("plus", right=1).to_list() == [42]'; }
listening() { for _ in $(seq 100); do spmat-health && return; sleep 0.2; done; return 1; }
taken() { python3 -c '
import socket, subprocess, time
with socket.create_server(("127.0.0.1", 7171)):
    subprocess.run(["systemctl", "start", "spmat"], check=True)
    time.sleep(12)
    state = subprocess.run(["systemctl", "is-active", "spmat"], stdout=subprocess.PIPE, text=True).stdout
    assert state == "activating\n", state'; listening; }
words_refused() {
    echo 'SERVE="--port 7171 --steps no --workers 2"' > /etc/default/spmat
    systemctl restart spmat
    sleep 4
    test "$(systemctl is-active spmat)" = failed && test "$(systemctl show -p NRestarts --value spmat)" = 0
}

id -u anna > /dev/null 2>&1 || useradd anna
id -u boris > /dev/null 2>&1 || useradd boris
usermod -a -G spmat-clients anna
tried 'no unit is enabled or started by the installation' bash -c '! systemctl is-enabled spmat.service spmat.socket && ! systemctl is-active spmat.service spmat.socket'
tried 'the socket starts' systemctl start spmat.socket
tried 'a user of the group has a session' session anna
tried 'a user who is not in the group is refused' refused boris
tried 'the journal tells the user of each session' bash -c "journalctl -b --no-pager | grep -E 'spmat@[0-9]+-[0-9]+-$(id -u anna).service'"
tried 'spmat-health at the socket' spmat-health /run/spmat.sock 1000000000000
tried 'sixteen have budgets of their own, one more reads the end' seats
tried 'memory is refused at LimitAS, and the session goes on' limits
tried 'six hundred connections do not fail the socket' flood
tried 'sessions go on when the socket stops' goes_on
tried 'the server starts' systemctl start spmat
tried 'it answers' listening
tried 'a session of the server' served
systemctl stop spmat
tried 'a port that is taken for a while' taken
tried 'words that are refused are not tried again' words_refused
