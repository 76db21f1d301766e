"""The Python client at a gateway: a session, a refusal, and the command line."""
import os
import subprocess
import sys
import unittest

from .support import TOP, Certificates, Gateway, folder, has_module

CLIENT = os.path.join(TOP, 'clients', 'python')


@unittest.skipUnless(has_module('numpy'), 'no numpy')
class Python(unittest.TestCase):
    def test_sessions(self):
        sys.path.insert(0, CLIENT)
        self.addCleanup(sys.path.remove, CLIENT)
        import spmat
        with folder() as where:
            pem, authority = Certificates(where).make('localhost')
            anna, certificate = Certificates(where).make('anna')
            with Gateway(where, tls_certificate=pem, tls_clients=certificate) as gateway:
                url = 'localhost:%d' % gateway.port
                token = gateway.add('boris').split()[1]
                gateway.add('anna', '--certificate', certificate)
                tls = __import__('ssl').create_default_context(cafile=authority)
                tls.load_cert_chain(anna)
                for address, words in (('spmat://boris@' + url, {'token': token, 'ca': authority}),
                                       ('spmat://' + url, {'tls': tls})):
                    with spmat.Session.connect(address, **words) as s:
                        self.assertEqual(s.from_triples([(0, 0, 41)], 1,
                                                        1).apply(lambda x: x + 1).to_list(), [42])
                with self.assertRaisesRegex(spmat.errors.Refused, 'another token is right'):
                    spmat.Session.connect('spmat://boris@' + url, token='wrong', ca=authority)
                gateway.end_tokens()
                with self.assertRaisesRegex(spmat.errors.Refused, 'expired'):
                    spmat.Session.connect('spmat://boris@' + url, token=token, ca=authority)
                token = gateway.command('users', 'renew', 'boris').strip()
                ran = subprocess.run([sys.executable, '-m', 'spmat', 'triangle-count',
                                      os.path.join(TOP, 'docs', 'karate.mtx'), '--connect',
                                      'spmat://boris@' + url, '--cacert', authority],
                                     stdout=subprocess.PIPE, text=True, check=True,
                                     env=dict(os.environ, SPMAT_TOKEN=token, PYTHONPATH=CLIENT))
                self.assertEqual(ran.stdout, '45\n')
                self.assertEqual(sorted((row['account'], row['jobs'] > 0, row['basis'])
                                        for row in gateway.sessions()),
                                 [('anna', True, 'exact'), ('boris', True, 'exact'),
                                  ('boris', True, 'exact')])


if __name__ == '__main__':
    unittest.main()
