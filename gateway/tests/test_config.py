"""The file: every fault names its key, what came, and what was expected."""
import contextlib
import io
import os
import unittest
from unittest import mock

from spmat_gateway import cli, config, users
from spmat_gateway.config import ConfigError

from .support import folder

FAULTS = (
    ('[gatewy]\nname = "a"', r'no table is called \[gatewy\]; there are'),
    ('[gateway]\nnmae = "a"', r'\[gateway\] has no key nmae; its keys are name, state'),
    ('[gateway]\nseats = 0', r'\[gateway\] seats is 1 to 10000, not 0'),
    ('[gateway]\nseats = "many"', r"seats is a whole number, not 'many'"),
    ('[gateway]\nseats = true', 'seats is a whole number, not True'),
    ('[gateway]\nseats = 1.5', 'seats is a whole number, not 1.5'),
    ('[gateway]\nlisten = "here"', r"listen is HOST:PORT, such as 0.0.0.0:7173, not 'here'"),
    ('[gateway]\nlisten = ["127.0.0.1:7173", "here"]', "listen is HOST:PORT, .* not 'here'"),
    ('[gateway]\nlisten = 7173', 'listen is a list of words, not 7173'),
    ('[tls]\nleast = "1.1"', "least is 1.2 or 1.3, not '1.1'"),
    ('[gateway]\nlisten = "0.0.0.0:7173"', r'\[tls\] certificate is missing: without TLS'),
    ('[gateway]\nlisten = "127.0.0.1:70000"', 'listen is HOST:PORT'),
    ('[gateway]\nunfinished = "all"', "unfinished is price or known, not 'all'"),
    ('[gateway]\nname = 5', r'name is a text, not 5'),
    ('[gateway]\nnew-users = "lab"', "new-users is a group, such as @institute, not 'lab'"),
    ('[gateway]\njobs-listed = 5', 'has no key jobs-listed'),
    ('[gateway]\ntoken-days = -1', 'token-days is 0 to'),
    ('[engine]\ncommand = "spmat run"', 'command is a list of words'),
    ('[engine]\ncommand = []', 'command is empty'),
    ('[engine]\ncommand = ["spmat", "{step}"]', r"'\{step\}' has a brace that is none of \{steps"),
    ('[engine]\ncommand = ["spmat", "{steps!x}"]', r"'\{steps!x\}' has a brace that is none of"),
    ('[engine]\ncommand = ["spmat", "{steps:9}"]', r"'\{steps:9\}' has a brace that is none of"),
    ('[engine]\nstop = ["end", "{user}"]', r"'\{user\}' has a brace that is none of \{session\};"),
    ('[engine]\ncommand = ["spmat", "{"]', r'command: '),
    ('[engine]\nenvironment = {A = 1}', 'environment is a table of words'),
    ('[limits]\nmemory = 1', 'memory is 67108864 to'),
    ('[limits]\nsteps-a-day = -1', 'steps-a-day is 0 to'),
    ('[limits]\nsteps-a-day = inf', 'steps-a-day is a whole number, not inf'),
    ('[limits]\nsteps-a-day = nan', 'steps-a-day is a whole number, not nan'),
    ('[limits]\nseconds = 1e400', 'seconds is a whole number, not inf'),
    ('a = ' + '[' * 5000, 'its brackets are nested too deeply'),
    ('limits = 5', r'limits is a table, \[limits\], not 5'),
    ('[gateway', 'Expected'),
)


class Files(unittest.TestCase):
    def read(self, text):
        with folder() as where:
            path = os.path.join(where, 'gate.toml')
            with open(path, 'w', encoding='utf-8') as file:
                file.write(text)
            return config.read(path)

    def test_faults(self):
        for text, words in FAULTS:
            with self.subTest(text=text), \
                    self.assertRaisesRegex(ConfigError, 'gate.toml: .*' + words):
                self.read(text)
        with self.assertRaisesRegex(ConfigError, '/no/file: No such file'):
            config.read('/no/file')

    def test_an_empty_file(self):
        found = self.read('')
        self.assertEqual(found, config.Config())
        self.assertEqual(found.ledger, '/var/lib/spmat-gateway/ledger.db')

    def test_values(self):
        found = self.read(
            '[limits]\nsteps-a-day = 1e12\nmemory = 1_000_000_000\n[tls]\ncertificate = "a.pem"\n'
            '[gateway]\nlisten = "[::]:7173"\nledger = "postgresql://x/y"\n[engine]\ncommand = '
            '["ssh", "{user}"]\n')
        self.assertEqual((found.limits.steps_a_day, found.limits.memory), (10 ** 12, 10 ** 9))
        self.assertEqual(found.gateway.listen, ('[::]:7173',))
        self.assertEqual(config.parse_address('listen', '[::]:7173'), ('::', 7173))
        self.assertEqual((found.ledger, found.engine.command),
                         ('postgresql://x/y', ('ssh', '{user}')))


class Checks(unittest.TestCase):
    """What `check` finds that isn't in the file."""

    def check(self, text, status):
        said = io.StringIO()
        with folder() as where, contextlib.redirect_stderr(said), contextlib.redirect_stdout(said):
            path = os.path.join(where, 'gate.toml')
            with open(path, 'w', encoding='utf-8') as file:
                file.write('[gateway]\nadmin = "%s/admin.sock"\n%s\n' % (where, text))
            self.assertEqual(cli.main(['check', '--config', path]), status)
        return said.getvalue()

    def test_a_module_that_is_missing(self):
        with mock.patch('importlib.util.find_spec', return_value=None):
            self.assertIn('python3-psycopg', self.check('ledger = "postgresql://x/y"', 1))


class Logins(unittest.TestCase):
    def test_tokens(self):
        token = users.new_token()
        stored = users.hash_token(token)
        self.assertNotIn(token, stored)
        self.assertNotEqual(stored, users.hash_token(token))
        self.assertTrue(users.is_right(stored, token))
        for other in (token + 'x', token[:-1], '', stored):
            self.assertFalse(users.is_right(stored, other))
        self.assertFalse(users.is_right(None, token))
        self.assertGreater(len(token), 40)

    def test_lines(self):
        self.assertEqual(users.parse_login(b'login anna t0ken\r'), users.Login('anna', 't0ken'))
        for line in (b'', b'login', b'login anna', b'login anna a b', b'LOGIN anna a',
                     b'login @lab a', b'login -x a', b'login a/b a', b'login \xff a',
                     b'login ' + b'a' * 33 + b' a'):
            self.assertIsNone(users.parse_login(line), line)


if __name__ == '__main__':
    unittest.main()
