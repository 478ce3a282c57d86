#!/usr/bin/env python3
"""against_definitions.py [CASES]: hold the definitions of crates/rules to the cases of the Rust program beside this file.

Each case becomes one equation that antt has to compute: what `verdict` or `run` gives is what the Rust program printed.
One more equation says that the image of TEA in crates/laws has the bytes of samples/tea.image.
CASES is a file with the output of `cargo run --release --bin cases`; without it the program is run. A case that differs fails by its name.
The made-up crate stands in a temporary folder, beside copies of crates/rules and of the crates that laws needs."""
import os, re, shutil, subprocess, sys, tempfile, time

HERE = os.path.dirname(os.path.abspath(__file__))
TOP = os.path.join(HERE, '..')
RULES = os.path.join(TOP, 'crates', 'rules')
CRATES = {'rules': '', 'numbers': 'rules', 'laws': 'rules numbers', 'cases': 'rules laws'}
PER_FILE = 30
HEAD = '''use Rattle.std.specs.Prelude.{ℕ, zero, suc, ◌+◌, ◌-◌, ◌*◌, ◌/◌, ◌%◌, ◌^◌, ◌≡◌, refl, List, [], ◌∷◌, ◌++◌}
use Rattle.rules.specs.Words.{Direction, forward, inverse}
use Rattle.rules.specs.Form.{Verdict}
use Rattle.rules.specs.Run.{Given, Outcome}
'''

def unfoldable():
    names = {}
    for module in ('Words', 'Image', 'Form', 'Tree', 'Walk', 'Check', 'Machine', 'Run'):
        with open(os.path.join(RULES, 'specs', module + '.antt')) as f:
            names[module] = re.findall(r'^unfoldable pub (\S+)', f.read(), flags=re.M)
    return names

def numbers(text):
    return ' ∷ '.join([] if text == '-' else text.split()) + (' ∷ []' if text != '-' else '[]')

def equation(fields):
    if fields[1] == 'check':
        number, place = fields[3].split()
        return f'verdict ({numbers(fields[2])}) ≡ record {{ number = {number}; place = {place} }}'
    _, _, image, inverse, lengths, store, works, budget, room, answer, after, events = fields
    number, place, steps = answer.split()
    given = (f'record {{ image = {numbers(image)}; direction = {"inverse" if inverse == "1" else "forward"}; lengths = {numbers(lengths)}; '
             f'store = {numbers(store)}; works = {works}; budget = {budget}; room = {room} }}')
    return f'run ({given}) ≡ record {{ number = {number}; place = {place}; steps = {steps}; store = {numbers(after)}; events = {numbers(events)} }}'

def tea_equation():
    with open(os.path.join(TOP, 'samples', 'tea.image'), 'rb') as f:
        image = ' '.join(map(str, f.read()))
    uses = 'use Rattle.std.specs.Prelude.{[], ◌∷◌, ◌≡◌, refl}\nuse Rattle.laws.specs.Tea.{tea}\n'
    return f'{uses}\nsame_tea : tea ≡ {numbers(image)}\nunfolding tea\nsame_tea = refl\n'

def write_crate(repository, cases):
    names = unfoldable()
    uses = HEAD + ''.join(f'use Rattle.rules.specs.{m}.{{{", ".join(ns)}}}\n' for m, ns in names.items())
    opened = 'unfolding ' + ' '.join(n for ns in names.values() for n in ns)
    crate = os.path.join(repository, 'crates', 'cases')
    os.makedirs(os.path.join(crate, 'specs'))
    os.makedirs(os.path.join(crate, 'src'))
    with open(os.path.join(crate, 'src', 'lib.rt'), 'w') as f:
        f.write('// no code\n#![tactic(auto)]\n')
    modules = ['Tea']
    with open(os.path.join(crate, 'specs', 'Tea.antt'), 'w') as f:
        f.write(tea_equation())
    for start in range(0, len(cases), PER_FILE):
        modules.append(f'Part{start // PER_FILE}')
        with open(os.path.join(crate, 'specs', modules[-1] + '.antt'), 'w') as f:
            f.write(uses)
            for k, fields in enumerate(cases[start:start + PER_FILE], start):
                f.write(f'\n-- {fields[0]}\ncase{k} : {equation(fields)}\n{opened}\ncase{k} = refl\n')
    with open(os.path.join(crate, 'specs', 'Lib.antt'), 'w') as f:
        f.write(''.join(f'pub mod {m}\n' for m in modules))

def main():
    if len(sys.argv) > 1:
        with open(sys.argv[1]) as f:
            lines = f.read().splitlines()
    else:
        ran = subprocess.run(['cargo', 'run', '--release', '--offline', '--quiet', '--bin', 'cases'], cwd=HERE, capture_output=True, text=True, check=True)
        lines = ran.stdout.splitlines()
    cases = [line.split(' | ') for line in lines if line.strip()]
    start, repository = time.time(), tempfile.mkdtemp(prefix='definitions-')
    try:
        for crate in list(CRATES)[:-1]:
            shutil.copytree(os.path.join(TOP, 'crates', crate), os.path.join(repository, 'crates', crate), ignore=shutil.ignore_patterns('out'))
        with open(os.path.join(repository, 'crates.txt'), 'w') as f:
            f.write(''.join(f'{crate}: {below}\n' for crate, below in CRATES.items()))
        write_crate(repository, cases)
        ran = subprocess.run(['rt', 'check'], cwd=os.path.join(repository, 'crates', 'cases'), capture_output=True, text=True)
        out = ran.stdout + ran.stderr
        wrong = sorted({int(k) for k in re.findall(r'error: `case(\d+)`', out)})
        for k in wrong:
            print('differs:', cases[k][0])
        if 'error: `same_tea`' in out:
            print('differs: the bytes of TEA in crates/laws and in samples/tea.image')
        elif ran.returncode != 0 and not wrong:
            print(out[-4000:])
        print(f'{len(cases) - len(wrong)} cases agree, {len(wrong)} differ ({time.time() - start:.0f} s)')
        return 1 if wrong or ran.returncode != 0 else 0
    finally:
        shutil.rmtree(repository, ignore_errors=True)

sys.exit(main())
