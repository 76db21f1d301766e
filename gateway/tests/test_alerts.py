"""Prometheus' rules and Grafana's board: they ask for what the gateway counts, and rules call when
they should."""
import json
import os
import re
import shutil
import subprocess
import unittest

from .support import TOP, Gateway, folder

FILES = os.path.join(TOP, 'packaging', 'gateway')
NAME = re.compile(r'spmat_gateway_\w+')
CASES = """rule_files: [%s/alerts.yml]
evaluation_interval: 1m
tests:
  - interval: 1m
    input_series:
      - {series: 'spmat_gateway_ledger_up{instance="one"}', values: '1x4 0x10'}
      - {series: 'spmat_gateway_refusals_total{instance="one", reply="login"}', values: '0+200x20'}
      - {series: 'spmat_gateway_sessions_running{instance="one"}', values: '8x20'}
      - {series: 'spmat_gateway_seats{instance="one"}', values: '10x20'}
    alert_rule_test:
      - {eval_time: 4m, alertname: LedgerDown, exp_alerts: []}
      - eval_time: 8m
        alertname: LedgerDown
        exp_alerts: [{exp_labels: {severity: page, instance: one}, exp_annotations: {
          summary: "The ledger of one doesn't answer: new clients read `no ledger`."}}]
      - eval_time: 8m
        alertname: ManyWrongLogins
        exp_alerts: [{exp_labels: {severity: warn, instance: one, reply: login}, exp_annotations: {
          summary: "One wrong login a second at one."}}]
      - {eval_time: 15m, alertname: SeatsTaken, exp_alerts: []}
"""


def text_of(name):
    """A file of packaging/gateway."""
    with open(os.path.join(FILES, name), encoding='utf-8') as file:
        return file.read()


class Names(unittest.TestCase):
    def test_what_is_asked_for_is_counted(self):
        with folder() as where, Gateway(where) as gateway:
            counted = set(NAME.findall(gateway.get('/metrics')[1]))
        for name in ('alerts.yml', 'grafana.json'):
            asked = set(NAME.findall(text_of(name)))
            self.assertGreater(len(asked), 5)
            self.assertEqual(asked - counted, set())

    def test_each_reply_and_cause_is_one(self):
        """What a rule compares a label with, the gateway's page of replies has."""
        with open(os.path.join(TOP, 'docs', 'service.md'), encoding='utf-8') as file:
            page = file.read()
        for _, word in re.findall(r'(reply|cause)="(\w+)"', text_of('alerts.yml')):
            self.assertTrue('`no %s`' % word in page or '`%s`' % word in page
                            or word == 'connection', word)

    def test_the_board(self):
        board = json.loads(text_of('grafana.json'))
        places = [tuple(panel['gridPos'].values()) for panel in board['panels']]
        self.assertEqual(len(set(places)), len(places))
        self.assertTrue(all(target['expr'] for panel in board['panels']
                            for target in panel['targets']))

    @unittest.skipIf(shutil.which('promtool') is None, 'no promtool')
    def test_rules(self):
        with folder() as where:
            path = os.path.join(where, 'cases.yml')
            with open(path, 'w', encoding='utf-8') as file:
                file.write(CASES % FILES)
            for words in (['check', 'config', os.path.join(FILES, 'prometheus.yml')],
                          ['test', 'rules', path]):
                said = subprocess.run(['promtool', *words], stdout=subprocess.PIPE,
                                      stderr=subprocess.STDOUT, text=True, check=False, timeout=60)
                self.assertEqual(said.returncode, 0, said.stdout)


if __name__ == '__main__':
    unittest.main()
