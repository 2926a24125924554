"""Copies of crates, with crates beside them that stand in no line of crates.txt."""
import os
import shutil

TOP = os.path.dirname(os.path.dirname(os.path.dirname(os.path.abspath(__file__))))


def lines_below(names):
    """The lines of crates.txt of these crates and of those that they stand on."""
    with open(os.path.join(TOP, 'crates.txt'), encoding='utf-8') as lines:
        rows = {line.split(':')[0].split()[0]: line for line in lines if ':' in line and not line.startswith('#')}
    found, left = {}, list(names)
    while left:
        name = left.pop()
        if name in rows and name not in found:
            found[name] = rows[name]
            left += rows[name].split(':')[1].split()
    return found


def copy_with(folder, source, crates):
    """Copies what these crates stand on into a folder, and beside it the crates: their files lie below `source`, each with `.txt` behind its name.
    `crates` tells for each the crates that it names."""
    lines = lines_below(' '.join(crates.values()).split())
    for name in lines:
        shutil.copytree(os.path.join(TOP, 'crates', name), os.path.join(folder, 'crates', name), ignore=shutil.ignore_patterns('out'))
    for place, _, files in os.walk(source):
        to = os.path.join(folder, 'crates', os.path.relpath(place, source))
        os.makedirs(to, exist_ok=True)
        for file in files:
            shutil.copy(os.path.join(place, file), os.path.join(to, file[:-len('.txt')]))
    with open(os.path.join(folder, 'crates.txt'), 'w', encoding='utf-8') as out:
        out.writelines(lines.values())
        out.writelines('%s: %s\n' % it for it in crates.items())
    shutil.copy(os.path.join(TOP, 'HANDLES'), folder)


def take_libraries(folder):
    """Copies into such a copy the libraries that stand built in this checkout. Each counts there while nothing that it is made of differs."""
    for name in os.listdir(os.path.join(folder, 'crates')):
        built = os.path.join(TOP, 'crates', name, 'out', 'rlib')
        if os.path.isdir(built):
            shutil.copytree(built, os.path.join(folder, 'crates', name, 'out', 'rlib'))
