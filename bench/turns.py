#!/usr/bin/env python3
"""Times tasks of crates/speed in turn, and of ICU4C: turns.py PROGRAM PEER FOLDER FILE:TASK..

FOLDER has `records`, and each FILE; PEER is bench/icu4c.cpp, which reads UTF-8 for tasks of UTF-16 too. A measurement is the
user time of 21 rounds less that of 1, each the best of five; the tasks take turns, so that what else the machine does slows
all of them alike. Prints a line a task: megabytes in a second or, for tasks of UTF-16, million units, ours : ICU4C's = ours
by ICU4C's; for tasks that load data, milliseconds a round. Tasks that the program doesn't have are left out.
"""
import os
import subprocess
import sys

TURNS = 5
ROUNDS = 20


def user_time(words):
    out = [(os.POSIX_SPAWN_OPEN, 1, os.devnull, os.O_WRONLY, 0)]
    pid = os.posix_spawn(words[0], words, os.environ, file_actions=out)
    _, status, usage = os.wait4(pid, 0)
    if status != 0:
        sys.exit(f'{words}: status {status}')
    return usage.ru_utime


def commands(program, peer, folder, file, task, rounds):
    """What does a task: ours and, if it isn't to load data, ICU4C's."""
    path = os.path.join(folder, file)
    ours = [program, 'normal', os.path.join(folder, 'records'), path, task, str(rounds)]
    return [ours] if task.startswith('try_') else [ours, [peer, path.removesuffix('16'), 'root', task, str(rounds)]]


def is_task(program, folder, file, task):
    words = [program, 'normal', os.path.join(folder, 'records'), os.path.join(folder, file), task, '1']
    return not subprocess.run(words, stdout=subprocess.PIPE, check=True).stdout.startswith(b'usage')


def show(folder, file, task, seconds):
    """Prints what a round takes, ours and ICU4C's."""
    if len(seconds) == 1:
        print(f'{task:24} {1e3 * seconds[0]:8.2f} ms')
        return
    size = os.path.getsize(os.path.join(folder, file)) / 1e6
    unit, size = ('million units', size / 2) if task.endswith('_utf16') else ('MB', size)
    ours, theirs = (size / one for one in seconds)
    print(f'{file} {task:18} {ours:.0f} : {theirs:.0f} = {ours / theirs:.2f} {unit} a second')


def main(words):
    if len(words) < 4 or not all(':' in word for word in words[3:]):
        sys.stderr.write(__doc__)
        return 2
    program, peer, folder = words[:3]
    tasks = [task for task in (tuple(word.split(':')) for word in words[3:]) if is_task(program, folder, *task)]
    best = {}
    for _ in range(TURNS):
        for file, task in tasks:
            for rounds in (1, 1 + ROUNDS):
                for who, command in enumerate(commands(program, peer, folder, file, task, rounds)):
                    key = file, task, who, rounds
                    best[key] = min(best.get(key, 1e9), user_time(command))
    for file, task in tasks:
        whos = [who for who in range(2) if (file, task, who, 1) in best]
        show(folder, file, task, [(best[file, task, who, 1 + ROUNDS] - best[file, task, who, 1]) / ROUNDS for who in whos])
    return 0


if __name__ == '__main__':
    sys.exit(main(sys.argv[1:]))
