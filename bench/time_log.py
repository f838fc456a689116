#!/usr/bin/env python3
"""Times the built program on logs of three sizes, beside grep -c and ausearch --raw on the same files in the same run.

    bench/time_log.py [--seed N] [--sizes 10,30,100] [--modes plain,continuous] [--asked 100] [--program ./crates/audit_cli/out/audit_cli]

Each log comes from make_log.py, by the number that --seed names. In each mode the program takes the whole log and settles; then it is asked
`back`, `fore`, `why`, `show` and `find` about random objects, `find` for a name that such an object has. Printed are the machine, megabytes a
second, the peak of memory, the rows kept, the median and the 95th of a hundred of each question's time from its line to its reply, and the
exponent between the smallest and the largest log, and last the time and the peak of memory of `trial 1 200000`. ausearch is Debian's package auditd.
"""
import argparse, json, math, os, platform, random, resource, subprocess, sys, tempfile, time

HERE = os.path.dirname(os.path.abspath(__file__))
BYTES_OF_AN_EVENT = 430


def machine():
    model = next((line.split(':', 1)[1].strip() for line in open('/proc/cpuinfo') if line.startswith('model name')), '?')
    memory = next((int(line.split()[1]) // 1024 // 1024 for line in open('/proc/meminfo') if line.startswith('MemTotal')), 0)
    return f'{model}, {os.cpu_count()} processors, {memory} GiB, {platform.system()} {platform.release()}'


def run(words, stdin=b''):
    """The seconds of the fastest of three runs, the peak of memory in MB, and the output of the last."""
    best, peak, out = math.inf, 0, b''
    for _ in range(3):
        begun = time.perf_counter()
        child = subprocess.Popen(words, stdin=subprocess.PIPE, stdout=subprocess.PIPE, stderr=subprocess.DEVNULL)
        child.stdin.write(stdin)
        child.stdin.close()
        out = child.stdout.read()
        _, _, usage = os.wait4(child.pid, 0)
        child.returncode = 0
        best = min(best, time.perf_counter() - begun)
        peak = max(peak, usage.ru_maxrss / 1024)
    return best, peak, out


def ask(words, count, seed):
    """For each kind of question the sorted seconds of this many about random objects, once the log is taken."""
    child = subprocess.Popen(words, stdin=subprocess.PIPE, stdout=subprocess.PIPE, bufsize=0)
    replies = os.fdopen(os.dup(child.stdout.fileno()), 'rb', 1 << 20)

    def say(question):
        begun = time.perf_counter()
        child.stdin.write(question.encode() + b'\n')
        reply = replies.readline()
        return time.perf_counter() - begun, reply

    say('take 999999999999999')
    say('settle')
    known = json.loads(say('stat')[1])['known']
    rng = random.Random(seed)
    one = lambda: rng.randrange(known)
    questions = {way: [f'{way} {one()}' for _ in range(count)] for way in ('back', 'fore')}
    questions['why'] = [f'why {one()} {one()}' for _ in range(count)]
    questions['show'] = [f'show {one()}' for _ in range(count)]
    names = [name for line in questions['show'] for name in json.loads(say(line)[1])['names']]
    questions['find'] = [f'find {rng.choice(names)}' for _ in range(count)] if names else []
    taken = {way: sorted(say(line)[0] for line in lines) for way, lines in questions.items() if lines}
    say('end')
    child.wait()
    return taken


def main():
    parser = argparse.ArgumentParser()
    parser.add_argument('--seed', type=int, default=1)
    parser.add_argument('--sizes', default='10,30,100')
    parser.add_argument('--modes', default='plain,continuous')
    parser.add_argument('--asked', type=int, default=100)
    parser.add_argument('--program', default=os.path.join(HERE, '..', 'crates', 'audit_cli', 'out', 'audit_cli'))
    options = parser.parse_args()
    program, modes = os.path.abspath(options.program), options.modes.split(',')
    print(machine())
    taken = {mode: [] for mode in modes}
    with tempfile.TemporaryDirectory() as folder:
        for size in [int(word) for word in options.sizes.split(',')]:
            log = os.path.join(folder, 'log')
            with open(log, 'wb') as file:
                subprocess.run([sys.executable, os.path.join(HERE, 'make_log.py'), str(options.seed), str(size * 1_000_000 // BYTES_OF_AN_EVENT)], stdout=file, check=True)
            megabytes = os.path.getsize(log) / 1e6
            grep, _, _ = run(['grep', '-c', '', log])
            raw, _, _ = run(['sh', '-c', 'exec ausearch --raw -if "$0" >/dev/null', log]) if subprocess.run(['which', 'ausearch'], stdout=subprocess.DEVNULL).returncode == 0 else (math.nan, 0, b'')
            print(f'{megabytes:.1f} MB: grep -c {grep:.3f} s, {megabytes / grep:.0f} MB/s; ausearch --raw {raw:.3f} s, {megabytes / raw:.1f} MB/s')
            for mode in modes:
                words = [program, 'watch', mode, log]
                seconds, peak, out = run(words, b'take 999999999999999\nsettle\nstat\nend\n')
                taken[mode].append((megabytes, seconds))
                stat = json.loads(out.splitlines()[2])
                print(f'  {mode:10}: {seconds:.3f} s, {megabytes / seconds:.1f} MB/s, {raw / seconds:.2f} times ausearch, peak {peak:.1f} MB; '
                      f'{stat["kept"]} rows of {stat["flows"]} flows ({100 * stat["kept"] / max(stat["flows"], 1):.0f}%), {stat["known"]} objects')
                for way, times in (ask(words, options.asked, options.seed) if options.asked else {}).items():
                    print(f'  {mode:10}  {way}: median {1000 * times[len(times) // 2]:.2f} ms, 95th of 100 {1000 * times[len(times) * 95 // 100]:.2f} ms')
    for mode, points in taken.items():
        if len(points) > 1:
            (small, first), (large, last) = points[0], points[-1]
            print(f'{mode}: exponent {math.log(last / first) / math.log(large / small):.3f}')
    seconds, peak, out = run([program, 'trial', '1', '200000'])
    print(f'trial 1 200000: {seconds:.3f} s, peak {peak:.1f} MB; {" ".join(out.decode().split())}')


if __name__ == '__main__':
    main()
