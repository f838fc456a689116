#!/usr/bin/env python3
"""Holds a dialogue with the built program over pipes: each reply has to come before the next question is written.

    bench/dialogue.py [--program ./audit_cli]
"""
import argparse
import os
import select
import subprocess
import sys

HERE = os.path.dirname(os.path.abspath(__file__))


def main():
    parser = argparse.ArgumentParser()
    parser.add_argument('--program', default=os.path.join(HERE, '..', 'audit_cli'))
    options = parser.parse_args()
    log = os.path.join(HERE, '..', 'examples', 'two_flows.log')
    talk = [('take 100', '{"take":100}'), ('back 0', '{"error":"Unknown"}'), ('take 1000', '{"take":179}'), ('settle', '{"settle":2}'),
            ('back 2', '{"back":2,"ids":[0,1,2]}'), ('end', '{"end":true}')]
    child = subprocess.Popen([options.program, 'watch', 'plain', log], stdin=subprocess.PIPE, stdout=subprocess.PIPE, bufsize=0)
    for question, want in talk:
        child.stdin.write(question.encode() + b'\n')
        if not select.select([child.stdout], [], [], 30)[0]:
            print(f'no reply to {question!r} within 30 seconds')
            child.kill()
            return 1
        got = child.stdout.readline().decode().rstrip('\n')
        if got != want:
            print(f'{question!r} was answered {got!r}, not {want!r}')
            child.kill()
            return 1
    return child.wait()


if __name__ == '__main__':
    sys.exit(main())
