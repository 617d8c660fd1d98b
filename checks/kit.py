"""The toolchain's folder, the crates of crates.txt, and what the checks build over them.

    python3 -B checks/kit.py archive          has libwickanchor.a built where it is not that of the sources, and prints where it stands
    python3 -B checks/kit.py sources          prints a sum of the sources below each program and below the library for C
    python3 -B checks/kit.py passed FILE      behind an `rt ci` that has passed: what stands in the folders out/ is of the sources whose sums FILE has
    python3 -B checks/kit.py gate CRATE..     status 0 where the libraries of these crates stand in out/ as that `rt ci` built them
    python3 -B checks/kit.py check [gate]     checks the crate of this folder, a library below crates/; with `gate`, over such libraries beside it

`rt ci` leaves its libraries in the folders out/ without a stamp, so `rt check` and `rt lib` would prove them anew. Behind the gate the compiler
itself is called over them, with the words that `rt` has for it. `archive` and `passed` print nothing else on standard output. Exit status: 0 where
all went well, 1 where something is not proved or not built.
"""
import hashlib
import os
import pathlib
import subprocess
import sys

ROOT = pathlib.Path(__file__).resolve().parent.parent
CRATES = ROOT / 'crates'
LIBRARY = 'wickanchor'
ARCHIVE = CRATES / LIBRARY / 'out' / f'lib{LIBRARY}.a'


def home():
    """The folder of the kit."""
    try:
        return pathlib.Path(subprocess.run(['rt', 'doc'], check=True, capture_output=True, text=True).stdout.strip()).parent
    except (OSError, subprocess.CalledProcessError):
        print('the Rattle kit is not here: no `rt` on the path', file=sys.stderr)
        sys.exit(1)


def listed(top=ROOT):
    """The crates of crates.txt, each with the crates and the libraries of the kit that it names."""
    lines = (line.split('#')[0].strip() for line in (top / 'crates.txt').read_text(encoding='utf-8').splitlines())
    return {head.split()[0]: needs.split() for head, _, needs in (line.partition(':') for line in lines if line)}


def programs(crates):
    return [name for name in crates if (CRATES / name / 'src' / 'main.rt').is_file()]


def reach(name, crates):
    """A crate and all of the repository that it leans on."""
    found, left = set(), [name]
    while left:
        crate = left.pop()
        if crate in crates and crate not in found:
            found.add(crate)
            left += crates[crate]
    return found


def sum_of(needs, kit):
    """A sum over all that a build of these crates depends on."""
    total = hashlib.sha256((kit / 'KIT-ID').read_bytes())
    total.update((ROOT / 'crates.txt').read_bytes())
    for crate in sorted(needs):
        for folder in ('src', 'specs', 'proofs'):
            for path in sorted((CRATES / crate / folder).rglob('*')):
                if path.is_file():
                    total.update(path.relative_to(ROOT).as_posix().encode() + b'\0' + path.read_bytes() + b'\0')
    return total.hexdigest()


def mark_of(made):
    """The file beside something that was built, which says of what."""
    return made.with_name(made.name + '.built')


def mark(made, total):
    """Notes that a file was built of the sources of this sum."""
    mark_of(made).write_text(f'{total} {hashlib.sha256(made.read_bytes()).hexdigest()}\n', encoding='utf-8')


def is_built(made, total):
    """Whether a file stands as it was built of the sources of this sum."""
    if not (made.is_file() and mark_of(made).is_file()):
        return False
    return mark_of(made).read_text(encoding='utf-8') == f'{total} {hashlib.sha256(made.read_bytes()).hexdigest()}\n'


def rlib(name, top=ROOT):
    return top / 'crates' / name / 'out' / 'rlib' / f'{name}.rlib'


def sources(crates, kit):
    """Pairs of a name and the sum of what lies below it: each program, and the library for C."""
    return [(name, sum_of(reach(name, crates), kit)) for name in [*programs(crates), LIBRARY]]


def passed(before, crates, kit):
    """Behind an `rt ci` that has passed, notes what stands in out/ of sources that are still what they were before it."""
    for name, total in sources(crates, kit):
        if f'{name} {total}' in before:
            made = CRATES / name / 'out' / (name if name != LIBRARY else 'gate')
            if name == LIBRARY:
                made.parent.mkdir(exist_ok=True)
                made.write_text('the libraries below stand as `rt ci` built them\n', encoding='utf-8')
            if made.is_file():
                mark(made, total)


def has_gates_libraries(names, crates, kit):
    """Whether the libraries of these crates, which lie below the library for C, stand in out/ as an `rt ci` built them of the sources."""
    needs = reach(LIBRARY, crates)
    return needs.issuperset(names) and is_built(CRATES / LIBRARY / 'out' / 'gate', sum_of(needs, kit)) \
        and all(rlib(name).is_dir() and not rlib(name).with_name('stamp').exists() for name in names)


def compiler(verb, name, crates, kit, top=ROOT):
    """The words that call the compiler on a library crate, in its folder, over the libraries in out/ of the repository at `top`."""
    words = [kit / 'bin' / 'rattle', verb, '--crate-name', name, 'src/lib.rt', '--extern', f'std={kit}/rlibs/std.rlib', '-L', f'dependency={kit}/rlibs']
    for need in crates[name]:
        words += ['--extern', f'{need}={rlib(need, top) if need in crates else kit / "rlibs" / (need + ".rlib")}']
    for need in sorted(reach(name, crates) - {name}):
        words += ['-L', f'dependency={rlib(need, top).parent}']
    words += ['--antt-project', kit / 'rattle' / 'logic' / 'antt-project.json', '--logic-built', kit / 'logic_built', '--links', f'{name}=', '--jobs', '2']
    return [str(word) for word in words]


def archive():
    """Has libwickanchor.a proved and built where it is not that of the sources as they stand; what is said of that goes to standard error where it fails."""
    crates, kit = listed(), home()
    total = sum_of(reach(LIBRARY, crates), kit)
    if is_built(ARCHIVE, total):
        return ARCHIVE
    words = ['rt', 'lib']
    if has_gates_libraries(reach(LIBRARY, crates) - {LIBRARY}, crates, kit):
        words = compiler('build', LIBRARY, crates, kit)
        words += ['--crate-type', 'staticlib', '--toolchain', str(kit / 'toolchain'), '--backend', 'llvm', '-o', str(ARCHIVE)]
    ran = subprocess.run(words, cwd=CRATES / LIBRARY, stdin=subprocess.DEVNULL, stdout=subprocess.PIPE, stderr=subprocess.STDOUT, text=True, errors='replace', check=False)
    if ran.returncode != 0 or not ARCHIVE.is_file():
        print(ran.stdout, end='', file=sys.stderr)
        print(f'{ARCHIVE.relative_to(ROOT)} is not built: see above', file=sys.stderr)
        sys.exit(1)
    if sum_of(reach(LIBRARY, crates), kit) == total:
        mark(ARCHIVE, total)
    return ARCHIVE


def main(words):
    verb, rest = (words[0], words[1:]) if words else ('', [])
    if verb == 'archive' and not rest:
        print(archive())
        return 0
    if verb == 'sources' and not rest:
        print('\n'.join(f'{name} {total}' for name, total in sources(listed(), home())))
        return 0
    if verb == 'passed' and len(rest) == 1:
        passed(pathlib.Path(rest[0]).read_text(encoding='utf-8').splitlines(), listed(), home())
        return 0
    if verb == 'gate' and rest:
        return 0 if has_gates_libraries(rest, listed(), home()) else 1
    if verb == 'check' and rest in ([], ['gate']):
        here = pathlib.Path.cwd()
        top = here.parent.parent
        return subprocess.run(compiler('check', here.name, listed(top), home(), top) if rest else ['rt', 'check'], stdin=subprocess.DEVNULL, check=False).returncode
    print(__doc__.strip(), file=sys.stderr)
    return 2


if __name__ == '__main__':
    sys.exit(main(sys.argv[1:]))
