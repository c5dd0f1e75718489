#!/usr/bin/env python3
"""Drops the answers that a check finds alone.

    tools/unneeded.py CRATE ..

Moves every proofs/**/Answers.antt of a crate aside, checks the crate with its goals open, and puts back the answers of those goals alone that stay open.
What it dropped it prints; `rt tidy` then drops the imports that nothing cites. A crate whose check does not pass afterwards is left as it was.
"""
import os, re, subprocess, sys

TOP = os.path.dirname(os.path.dirname(os.path.abspath(__file__)))
OPEN = re.compile(r'^(?:fn|impl) .*expected answers in \./(\S+Answers\.antt); `search` did not prove (.*)$')


def rt(crate, *words):
    run = subprocess.run(['rt', *words], cwd=crate, text=True, stdout=subprocess.PIPE, stderr=subprocess.STDOUT)
    return run.returncode, run.stdout


def answers(crate):
    for folder, _, files in os.walk(os.path.join(crate, 'proofs')):
        if 'Answers.antt' in files:
            yield os.path.join(folder, 'Answers.antt')


def still_open(output):
    """For each file of answers, the goals that stay open."""
    goals = {}
    for line in output.splitlines():
        m = OPEN.match(line)
        if m:
            goals.setdefault(m.group(1), set()).update(re.findall(r'`([^`]+)`', m.group(2).split(';')[0]))
    return goals


def answers_it(answer, goal):
    """Whether an answer is to a goal, to one of its clauses, or to what the goal is a clause of."""
    return answer == goal or answer.startswith(goal + '-clause-') or goal.startswith(answer + '-clause-')


def kept(text, wanted):
    """The text without the answers to other goals, and the goals that are gone."""
    parts = re.split(r'\n\n+', text.rstrip('\n'))
    out, gone, any_left = [], [], False
    for part in parts:
        m = re.search(r'^(?:#\[[^\]]*\]\n)?pub (\S+) : goal\.', part, re.M)
        if m and not any(answers_it(m.group(1), g) for g in wanted):
            gone.append(m.group(1))
            continue
        any_left = any_left or bool(m)
        out.append(part)
    return ('\n\n'.join(out) + '\n' if any_left else None), gone


def work(name):
    crate = os.path.join(TOP, 'crates', name)
    before = {f: open(f).read() for f in answers(crate)}
    for f in before:
        os.remove(f)
    _, output = rt(crate, 'check', '--allow-holes')
    goals = still_open(output)
    dropped = []
    for f, text in before.items():
        new, gone = kept(text, goals.get(os.path.relpath(f, crate), set()))
        dropped += [f'{os.path.relpath(f, crate)}: {g}' for g in gone]
        if new is not None:
            open(f, 'w').write(new)
    status, output = rt(crate, 'check')
    if status:
        for f, text in before.items():
            open(f, 'w').write(text)
        print(f'{name}: left as it was\n{output[-2000:]}')
        return
    for d in dropped:
        print(f'{name}: {d}')
    print(f'{name}: {len(dropped)} dropped, {sum(len(re.findall(r"^pub ", t, re.M)) for t in map(lambda f: open(f).read(), answers(crate)))} left')


if __name__ == '__main__':
    for name in sys.argv[1:]:
        work(name)
