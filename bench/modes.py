#!/usr/bin/env python3
"""Asks the built program the same questions in every mode, over a real log and generated ones, and compares the answers.

    bench/modes.py [--program ./audit_cli] [--modes continuous,full,source] [--seeds 3] [--events 1000] [--times 3]

Each known object is asked about in both directions, without a time and at several, at two moments of the log. Continuous mode has to say what
plain mode says. Full mode may say NotKept to `fore` with a time, source mode to any `fore`; else full mode has to say what plain mode says, and
source mode too, but to `back` with those alone of plain mode's ids that are sources. When exactly NotKept comes is compare.py's to hold against the
plain reading. It ends with status 1 and the first difference of each mode.
"""
import argparse
import json
import os
import random
import re
import subprocess
import sys
import tempfile

HERE = os.path.dirname(os.path.abspath(__file__))


def answers(program, mode, log, questions):
    said = subprocess.run([program, 'watch', mode, log], input='\n'.join(questions).encode(), stdout=subprocess.PIPE, check=False).stdout
    return said.decode().splitlines()


def questions_for(program, log, count, seed):
    """Every known object in both directions, without a time and at some, after half of the log and after all of it."""
    size = os.path.getsize(log)
    known = json.loads(answers(program, 'plain', log, [f'take {size}', 'settle', 'stat', 'end'])[2])['known']
    with open(log, 'rb') as file:
        times = sorted(set(re.findall(r'audit\(([0-9]+\.[0-9]{3}):', file.read().decode('latin1'))))
    rng = random.Random(seed)
    asked = [f'{way} {of}{at}' for of in range(known) for way in ('back', 'fore') for at in ['', *(f' {rng.choice(times)}' for _ in range(count))]]
    return [f'take {size // 2}', *asked, f'take {size}', 'settle', *asked, 'end']


def fits(mode, question, said, plain):
    """Whether a mode may say this if plain mode says that."""
    if said == plain:
        return mode != 'source' or not question.startswith('back') or 'ids' not in said
    if mode == 'continuous':
        return False
    if said == '{"error":"NotKept"}':
        return question.startswith('fore') and (mode == 'source' or question.count(' ') == 2) and 'ids' in plain
    if mode == 'source' and question.startswith('back') and 'ids' in plain:
        one, other = json.loads(said), json.loads(plain)
        return one.get('back') == other['back'] and set(one.get('sources', [None])) <= set(other['ids']) and one['sources'] == sorted(one['sources'])
    return False


def main():
    parser = argparse.ArgumentParser()
    parser.add_argument('--program', default=os.path.join(HERE, '..', 'audit_cli'))
    parser.add_argument('--modes', default='continuous,full,source')
    parser.add_argument('--seeds', type=int, default=3)
    parser.add_argument('--events', type=int, default=1000)
    parser.add_argument('--times', type=int, default=3)
    options = parser.parse_args()
    bad = 0
    with tempfile.TemporaryDirectory() as folder:
        logs = [os.path.join(HERE, '..', 'examples', 'web1_sample.log')]
        for seed in range(options.seeds):
            logs.append(os.path.join(folder, f'log{seed}'))
            with open(logs[-1], 'wb') as file:
                subprocess.run([sys.executable, os.path.join(HERE, 'make_log.py'), str(seed), str(options.events), '--mix'], stdout=file, check=True)
        for seed, log in enumerate(logs):
            questions = questions_for(options.program, log, options.times, seed)
            plain = answers(options.program, 'plain', log, questions)
            for mode in options.modes.split(','):
                said = answers(options.program, mode, log, questions)
                wrong = [number for number, triple in enumerate(zip(questions, said, plain)) if not fits(mode, *triple)]
                if wrong or len(said) != len(questions) or len(plain) != len(questions):
                    bad += 1
                    at = wrong[0] if wrong else min(len(said), len(plain))
                    print(f'{mode}, {log}: {len(wrong)} of {len(questions)} differ; {questions[at]!r}: {said[at:at + 1]}, but plain mode {plain[at:at + 1]}')
    return 1 if bad else 0


if __name__ == '__main__':
    sys.exit(main())
