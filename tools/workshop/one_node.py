"""Builds the program that takes the inputs of one node (`one_node_source`), unproved, in a copy of the crates whose fields are open. Its chunkserver stands over
a store of replicas in memory, which is there too."""
import os
import re
import subprocess
import tempfile

import kit
from crate_copy import copy_with
from unproved import build

CRATES = {'one_node': 'anyhow bytes chunk_table server_cell client_calls client_state client data_push gfs_types leases log_records master_cell master_replay master_plan '
          'master_state memory_store messages namespace ordered_map operation_log primary_order protocol replica_store',
          'memory_store': 'gfs_types messages ordered_map chunk_table replica_store store_disk bytes sha2'}


def opened(text):
    """A source whose modules, and whose structs' fields, are open to all."""
    text = re.sub(r'^mod (\w+);', r'pub mod \1;', text.replace('pub(crate) ', 'pub '), flags=re.M)
    struct = re.compile(r'^pub struct \w+[^;{]*\{\n.*?^\}', re.M | re.S)
    return struct.sub(lambda found: re.sub(r'^    (\w+): ', r'    pub \1: ', found[0], flags=re.M), re.sub(r'^struct ', 'pub struct ', text, flags=re.M))


def copied(folder):
    """Makes the copy."""
    copy_with(folder, os.path.join(os.path.dirname(os.path.abspath(__file__)), 'one_node_source'), CRATES)
    for place, _, files in os.walk(os.path.join(folder, 'crates')):
        for file in files:
            path = os.path.join(place, file)
            if file.endswith('.rt') and 'one_node' not in path:
                with open(path, encoding='utf-8') as it:
                    text = it.read()
                with open(path, 'w', encoding='utf-8') as out:
                    out.write(opened(text))


def built(program):
    """Builds it into this file, whose name it gives, for some minutes."""
    program = os.path.abspath(program)
    with tempfile.TemporaryDirectory() as folder:
        copied(folder)
        build(kit.load().rtlib, os.path.join(folder, 'crates'), 'one_node', program)
    return program


def compare(folder, program=None):
    """Runs it on each case of a folder, whose output must be what stands beside it. Exit status 1 on a difference."""
    with tempfile.TemporaryDirectory() as room:
        program = os.path.abspath(program) if program else built(os.path.join(room, 'one_node'))
        names = sorted(name for name in os.listdir(folder) if not name.endswith('.stdout'))
        differing = [name for name in names if not is_as_wanted(program, os.path.join(folder, name))]
    print('%d lists run by the nodes, %d differ: %s' % (len(names), len(differing), ' '.join(differing[:5]) or 'none'))
    return 1 if differing else 0


def is_as_wanted(program, path):
    with open(path, 'rb') as lines, open(path + '.stdout', 'rb') as wanted:
        done = subprocess.run([program], stdin=lines, capture_output=True, timeout=60, check=False)
        return done.returncode == 0 and done.stdout == wanted.read()
