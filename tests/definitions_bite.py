#!/usr/bin/env python3
"""definitions_bite.py [EDIT..]: what each wrong definition of crates/rules/must-fail does to the two theorems of crates/laws.

Every edit is made in a temporary copy of rules, numbers and laws, without the pinned traps. A refused proof does not by itself say that a theorem became false:
it may only rest on a definition's shape. So for each edit of COUNTEREXAMPLES antt first computes a run, over the edited definitions, for which the theorem is false.
Then laws is checked. A line says which theorems are false, which laws are refused for their own sake, the first one first, and which theorems are no longer proved.
Exit status 1 if a false theorem is still proved, a run is not as said, or an edit cannot be made. Run by hand: some ten seconds an edit."""
import concurrent.futures, glob, os, re, shutil, subprocess, sys, tempfile

ROOT = os.path.join(os.path.dirname(os.path.abspath(__file__)), '..')
CRATES = ('rules', 'numbers', 'laws')
THEOREMS = {'reversible': 'Reversible', 'secret': 'Secret'}

def reversible(parameters, variables, nodes, numbers, lengths, store):
    return 'reversible', f'not_taken_back (program {parameters} ({variables}) ({nodes}) ({numbers})) ({lengths}) ({store})'

def secret(parameters, variables, nodes, numbers, lengths, store, other):
    return 'secret', f'tells (program {parameters} ({variables}) ({nodes}) ({numbers})) ({lengths}) ({store}) ({other})'

U, S, A, ONE = 'scalar public', 'scalar hidden', 'array public', '1 ∷ []'
DOUBLED = reversible(1, f'{U} ∷ []', 'increase 1 2 missing ∷ var 0 ∷ var 0 ∷ []', '[]', ONE, '5 ∷ []')
COPIED = secret(2, f'{U} ∷ {S} ∷ []', 'increase 1 2 missing ∷ var 0 ∷ var 1 ∷ []', '[]', '1 ∷ 1 ∷ []', '0 ∷ 0 ∷ []', '0 ∷ 1 ∷ []')
# A program and a store (two stores that differ in secret cells only) for which the theorem is false where the edit is made.
COUNTEREXAMPLES = {
    # x += x; x += s
    'one_verdict_for_all': (DOUBLED, COPIED),
    # x += 1: no budget is too small for the 0 steps back, yet 0 is; { { secret t; t += s; } ; }: 27 after 0 steps, as many as the other run's
    'steps_not_counted': (
        reversible(1, f'{U} ∷ []', 'increase 1 2 missing ∷ var 0 ∷ num 0 ∷ []', '1 ∷ []', ONE, '5 ∷ []'),
        secret(1, f'{S} ∷ {S} ∷ []', 'block 0 0 1 missing ∷ block 1 1 2 5 ∷ increase 3 4 missing ∷ var 1 ∷ var 0 ∷ empty ∷ []', '[]', ONE, '0 ∷ []', '1 ∷ []')),
    # if s then ; else ;
    'secret_condition': (secret(1, f'{S} ∷ []', 'plain 5 1 2 3 0 ∷ var 0 ∷ empty ∷ empty ∷ []', '[]', ONE, '0 ∷ []', '1 ∷ []'),),
    # for (i = 0; s) i += 1;
    'secret_bound': (secret(1, f'{S} ∷ counter ∷ []', 'plain 6 1 1 2 3 ∷ num 0 ∷ var 0 ∷ increase 4 5 missing ∷ var 1 ∷ num 1 ∷ []', '0 ∷ 1 ∷ []', ONE, '0 ∷ []', '1 ∷ []'),),
    # t += a[s]
    'secret_index': (secret(3, f'{S} ∷ array hidden ∷ {S} ∷ []', 'increase 1 2 missing ∷ var 0 ∷ element 1 3 ∷ var 2 ∷ []', '[]', '1 ∷ 2 ∷ 1 ∷ []', '0 ∷ 7 ∷ 8 ∷ 0 ∷ []', '0 ∷ 7 ∷ 8 ∷ 1 ∷ []'),),
    # x += s
    'secret_into_public': (COPIED,),
    # if s then x <-> y
    'secret_swap_condition': (secret(3, f'{S} ∷ {U} ∷ {U} ∷ []', 'plain 4 1 2 3 0 ∷ var 0 ∷ var 1 ∷ var 2 ∷ []', '[]', '1 ∷ 1 ∷ 1 ∷ []', '0 ∷ 7 ∷ 9 ∷ []', '1 ∷ 7 ∷ 9 ∷ []'),),
    # t += 1 % s
    'secret_remainder': (secret(2, f'{S} ∷ {S} ∷ []', 'increase 1 2 missing ∷ var 0 ∷ binary 5 3 4 ∷ num 0 ∷ var 1 ∷ []', '1 ∷ []', '1 ∷ 1 ∷ []', '0 ∷ 0 ∷ []', '0 ∷ 1 ∷ []'),),
    # if s then t <-> u
    'swap_recorded_when_it_happens': (secret(3, f'{S} ∷ {S} ∷ {S} ∷ []', 'plain 4 1 2 3 0 ∷ var 0 ∷ var 1 ∷ var 2 ∷ []', '[]', '1 ∷ 1 ∷ 1 ∷ []', '0 ∷ 7 ∷ 9 ∷ []', '1 ∷ 7 ∷ 9 ∷ []'),),
    # x += x
    'root_in_value': (DOUBLED,),
    # a[a[0]] <-> x
    'own_index_of_a_swap': (reversible(2, f'{A} ∷ {U} ∷ []', 'plain 3 1 4 0 0 ∷ element 0 2 ∷ element 0 3 ∷ num 0 ∷ var 1 ∷ []', '0 ∷ []', '2 ∷ 1 ∷ []', '0 ∷ 7 ∷ 1 ∷ []'),),
    # if x then x <-> y
    'root_in_swap_condition': (reversible(2, f'{U} ∷ {U} ∷ []', 'plain 4 1 2 3 0 ∷ var 0 ∷ var 0 ∷ var 1 ∷ []', '[]', '1 ∷ 1 ∷ []', '1 ∷ 0 ∷ []'),),
    # if x then x -= 1 else ;
    'condition_changed_in_a_branch': (reversible(1, f'{U} ∷ []', 'plain 5 1 2 5 0 ∷ var 0 ∷ node 2 2 3 4 0 0 missing ∷ var 0 ∷ num 0 ∷ empty ∷ []', '1 ∷ []', ONE, '1 ∷ []'),),
    # for (i = 0; x) { i += 1; x += 1; }
    'bound_changed_in_the_body': (reversible(1, f'{U} ∷ counter ∷ []',
        'plain 6 1 1 2 3 ∷ num 0 ∷ var 0 ∷ block 0 0 4 missing ∷ increase 5 6 7 ∷ var 1 ∷ num 1 ∷ increase 8 9 missing ∷ var 0 ∷ num 1 ∷ []', '0 ∷ 1 ∷ []', ONE, '1 ∷ []'),),
    # p(x, x), where p(a, b) is a += b
    'one_root_twice': (('reversible', f'not_taken_back (programs (procedure 0 2 2 0 ∷ procedure 2 1 1 3 ∷ []) ({U} ∷ {U} ∷ {U} ∷ []) '
        '(increase 1 2 missing ∷ var 0 ∷ var 1 ∷ plain 7 0 4 0 0 ∷ node 21 0 2 0 0 0 5 ∷ var 2 ∷ []) []) (1 ∷ []) (5 ∷ [])'),),
    # for (i = 0; 2) { i += x; x += 1; } with x = -1: the counter is -1, -1, 0, 2, and the way back ends at that 0
    'counter_meets_its_first_bound': (reversible(1, f'{U} ∷ counter ∷ []',
        'plain 6 1 1 2 3 ∷ num 0 ∷ num 1 ∷ block 0 0 4 missing ∷ increase 5 6 7 ∷ var 1 ∷ var 0 ∷ increase 8 9 missing ∷ var 0 ∷ num 2 ∷ []', '0 ∷ 2 ∷ 1 ∷ []', ONE, '18446744073709551615 ∷ []'),),
    # for (i = 0; 2) i += 1;
    'inverse_for_keeps_its_bounds': (reversible(0, 'counter ∷ []', 'plain 6 0 1 2 3 ∷ num 0 ∷ num 1 ∷ increase 4 5 missing ∷ var 0 ∷ num 2 ∷ []', '0 ∷ 2 ∷ 1 ∷ []', '[]', '[]'),),
    # { x += 1; x ^= 6; }
    'inverse_list_goes_forward': (reversible(1, f'{U} ∷ []', 'block 0 0 1 missing ∷ increase 2 3 4 ∷ var 0 ∷ num 0 ∷ toggle 5 6 missing ∷ var 0 ∷ num 1 ∷ []', '1 ∷ 6 ∷ []', ONE, '1 ∷ []'),),
}
# Of all others both theorems stay true: a run that does nothing is taken back and tells nothing. They are refused by the contracts, which are equations with
# these definitions, by the starred turns and by the traps that crates/rules/proofs pins.
# So is a clearing test that stops at the first local by number. Its 26 becomes 27 with the key, as here, but after a 27 demand 3 asks only that one trace begins
# the other; and where neither run gives 27 the first local left is public, and left in both.
SPARED = {
    # { secret t; u64 p; t += s; p += 1; }
    'clearing_stops_at_the_first_local': (secret(1, f'{S} ∷ {S} ∷ {U} ∷ []',
        'block 1 2 1 missing ∷ increase 2 3 4 ∷ var 1 ∷ var 0 ∷ increase 5 6 missing ∷ var 2 ∷ num 0 ∷ []', '1 ∷ []', ONE, '0 ∷ []', '5 ∷ []'),),
}

BROKEN = '''-- Both demands as tests that compute.
use Rattle.std.specs.Prelude.{ℕ, zero, suc, ◌+◌, ◌-◌, ◌*◌, ◌/◌, ◌%◌, ◌^◌, ◌≡◌, refl, List, [], ◌∷◌, ◌++◌, Bool, true, false, not, cond, ◌&&◌, ◌||◌, eqb, leb}
use Rattle.rules.specs.Words.{Direction, forward, inverse}
use Rattle.rules.specs.Image.{missing, header_of, parts_of}
use Rattle.rules.specs.Form.{Verdict}
use Rattle.rules.specs.Check.{verdict, without_unsafe}
use Rattle.rules.specs.Run.{Given, Outcome, secrecies, store_refusal, run}
use Rattle.rules.proofs.Assemble.{procedure, node, plain}
use Rattle.rules.proofs.Opened.{definitions}
use Rattle.rules.proofs.Programs.{public, hidden, scalar, array, constant, counter, num, var, element, binary, empty, increase, toggle, block, program, programs}

begins : List ℕ → List ℕ → Bool
begins [] ys = true
begins (x ∷ xs) [] = false
begins (x ∷ xs) (y ∷ ys) = eqb x y && begins xs ys

same : List ℕ → List ℕ → Bool
same xs ys = begins xs ys && begins ys xs

-- cells with their secrecies
same_public : List ℕ → List ℕ → List ℕ → Bool
same_public [] xs ys = true
same_public (s ∷ ss) [] ys = true
same_public (s ∷ ss) (x ∷ xs) [] = true
same_public (s ∷ ss) (x ∷ xs) (y ∷ ys) = (eqb s 1 || eqb x y) && same_public ss xs ys

ran : Direction → List ℕ → List ℕ → ℕ → List ℕ → Outcome
ran d image lengths budget store = run (record { image = image; direction = d; lengths = lengths; store = store; works = 8192; budget = budget; room = 0 })

-- The run finishes, and the run back with as many steps does not restore the store.
back_fails : List ℕ → List ℕ → List ℕ → Outcome → Bool
back_fails image lengths store o = eqb o.number 0 && not (restored (ran inverse image lengths o.steps o.store))
  where
    restored : Outcome → Bool
    restored p = eqb p.number 0 && (eqb p.steps o.steps && same p.store store)

not_taken_back : List ℕ → List ℕ → List ℕ → Bool
not_taken_back image lengths store = back_fails image lengths store (ran forward image lengths 40 store)

-- What demand 3 asks of two outcomes.
indistinct : List ℕ → Outcome → Outcome → Bool
indistinct ss o p =
    cond (eqb o.number 27 || eqb p.number 27)
    ((not (leb o.steps p.steps) || begins o.events p.events) && (not (leb p.steps o.steps) || begins p.events o.events))
    (eqb o.number p.number && (eqb o.place p.place && (eqb o.steps p.steps && (same o.events p.events && same_public ss o.store p.store))))

-- Accepted, without unsafe look-ups, the stores well formed and equal at every public cell, and yet the outcomes can be told apart.
tells : List ℕ → List ℕ → List ℕ → List ℕ → Bool
tells image lengths store other =
    (eqb ((verdict image).number) 0 && without_unsafe image)
    && ((eqb ((store_refusal (header_of image) (parts_of image) lengths store).number) 0 && eqb ((store_refusal (header_of image) (parts_of image) lengths other).number) 0)
    && (same_public (secrecies (header_of image) (parts_of image) lengths) store other
    && not (indistinct (secrecies (header_of image) (parts_of image) lengths) (ran forward image lengths 40 store) (ran forward image lengths 40 other))))
'''

def apply(crate, edit):
    file, old = None, None
    for line in open(edit).read().splitlines():
        if line.startswith('file: '):
            file = os.path.join(crate, line[6:])
        elif line.startswith('old: '):
            old = line[5:]
        elif line.startswith('new:'):
            with open(file) as f:
                text = f.read()
            if text.count(old) != 1:
                raise ValueError(f'cannot be made: an old text stands {text.count(old)} times')
            with open(file, 'w') as f:
                f.write(text.replace(old, line[4:].removeprefix(' ')))

def kept_modules(lib, keep):
    with open(lib) as f:
        kept = [line for line in f if keep(line.split()[-1])]
    with open(lib, 'w') as f:
        f.writelines(kept)

def needed(modules, folder):
    """The modules of laws that these rest on, with themselves."""
    found, left = set(), list(modules)
    while left:
        module = left.pop()
        if module not in found:
            found.add(module)
            with open(os.path.join(folder, module + '.antt')) as f:
                left += re.findall(r'^use Rattle\.laws\.specs\.(\w+)', f.read(), flags=re.M)
    return found

def copy(repository):
    for crate in CRATES:
        shutil.copytree(os.path.join(ROOT, 'crates', crate), os.path.join(repository, 'crates', crate), ignore=shutil.ignore_patterns('must-fail', 'out', 'Traps.antt'))
    kept_modules(os.path.join(repository, 'crates', 'rules', 'proofs', 'Lib.antt'), lambda module: module != 'Traps')
    with open(os.path.join(repository, 'crates.txt'), 'w') as f:
        f.write('rules:\nnumbers: rules\nlaws: rules numbers\nbroken: rules\n')

def keep_laws(repository, modules):
    folder = os.path.join(repository, 'crates', 'laws', 'specs')
    kept_modules(os.path.join(folder, 'Lib.antt'), modules.__contains__)
    for file in os.listdir(folder):
        if file != 'Lib.antt' and file.removesuffix('.antt') not in modules:
            os.remove(os.path.join(folder, file))

def write_probes(repository):
    """A module for each theorem that rests on it alone: the check says of it whether the theorem is proved, in a list that is not cut short."""
    folder = os.path.join(repository, 'crates', 'laws', 'specs')
    for theorem, module in THEOREMS.items():
        with open(os.path.join(folder, f'Probe{module}.antt'), 'w') as f:
            f.write(f'use Rattle.laws.specs.{module}.{{{theorem}}}\n\nprobe : Unit {{0}}\nprobe = let t = {theorem} in tt\n')
        with open(os.path.join(folder, 'Lib.antt'), 'a') as f:
            f.write(f'pub mod Probe{module}\n')

def write_broken(repository, name):
    crate = os.path.join(repository, 'crates', 'broken')
    for folder in ('specs', 'src'):
        os.makedirs(os.path.join(crate, folder))
    with open(os.path.join(crate, 'src', 'lib.rt'), 'w') as f:
        f.write('// no code\n#![tactic(auto)]\n')
    with open(os.path.join(crate, 'specs', 'Lib.antt'), 'w') as f:
        f.write('pub mod Broken\n')
    with open(os.path.join(crate, 'specs', 'Broken.antt'), 'w') as f:
        f.write(BROKEN)
        tests = [(test, 'true') for _, test in COUNTEREXAMPLES.get(name, ())] + [(test, 'false') for _, test in SPARED.get(name, ())]
        for k, (test, value) in enumerate(tests):
            f.write(f'\nbroken{k} : {test} ≡ {value}\nunfolding definitions program programs begins same same_public ran back_fails not_taken_back indistinct tells\nbroken{k} = refl\n')

def check(repository, crate):
    ran = subprocess.run(['rt', 'check'], cwd=os.path.join(repository, 'crates', crate), capture_output=True, text=True, env={**os.environ, 'RT_CUT': '0', 'RT_JOBS': '1'})
    return ran.returncode, ran.stdout + ran.stderr

def refusals(repository):
    """The laws that are refused for their own sake, and the theorems that are no longer proved."""
    write_probes(repository)
    code, out = check(repository, 'laws')
    errors = re.findall(r'^\./specs/(\w+)\.antt:\d+:\d+: error: (?:`([^`]*)`:)?', out, flags=re.M)
    if code != 0 and not errors:
        raise ValueError(f'laws has no verdict: {out[-1500:]}')
    own = [f'{module} `{law}`' for module, law in errors if law]
    return list(dict.fromkeys(own)), [t for t, module in THEOREMS.items() if any(m == f'Probe{module}' for m, _ in errors)]

def tried(name, edit):
    """The line for one edit, and whether it is as it should be."""
    repository, false = tempfile.mkdtemp(prefix='bite-'), [t for t, _ in COUNTEREXAMPLES.get(name, ())]
    try:
        copy(repository)
        write_broken(repository, name)
        apply(os.path.join(repository, 'crates', 'rules'), edit)
        code, out = check(repository, 'broken')
        if code != 0:
            raise ValueError(f'a run is not as said: {out[-1500:]}')
        laws = os.path.join(ROOT, 'crates', 'laws', 'specs')
        keep_laws(repository, needed(['Reversible', 'Secret'], laws))
        own, lost = refusals(repository)
        if not own:
            # The two theorems stand: is it refused where their hypotheses are met, or by the starred turns?
            shutil.rmtree(os.path.join(repository, 'crates', 'laws'))
            shutil.copytree(os.path.join(ROOT, 'crates', 'laws'), os.path.join(repository, 'crates', 'laws'), ignore=shutil.ignore_patterns('must-fail', 'out'))
            own, lost = refusals(repository)
        return f'false: {", ".join(false) or "neither"} | refused: {", ".join(own) or "none"} | no longer proved: {", ".join(lost) or "none"}', set(false) <= set(lost)
    except ValueError as wrong:
        return str(wrong), False
    finally:
        shutil.rmtree(repository, ignore_errors=True)

def main():
    edits = {os.path.basename(e).removesuffix('.edit'): e for e in sorted(glob.glob(os.path.join(ROOT, 'crates', 'rules', 'must-fail', '*.edit')))}
    chosen = sys.argv[1:] or list(edits)
    unknown = (set(COUNTEREXAMPLES) | set(SPARED) | set(chosen)) - set(edits)
    if unknown:
        sys.exit('no such edit: ' + ', '.join(sorted(unknown)))
    wrong = 0
    with concurrent.futures.ThreadPoolExecutor(max_workers=2) as pool:
        for name, (line, right) in zip(chosen, pool.map(lambda n: tried(n, edits[n]), chosen)):
            wrong += not right
            print(f'{name} | {line}{"" if right else " | WRONG"}', flush=True)
    print(f'{len(chosen)} edits, {wrong} wrong')
    return 1 if wrong else 0

sys.exit(main())
