"""The static library of crate exports, called from Python (ctypes).

    library = Library()                 builds the archive (`rt lib` in crates/exports) and loads it
    build_archive(crate)                the archive of another crate's exported functions; build_shared(crate) to load it
    library.calls                       the numbers of the calls that it has (tests/second_validator/README.md)
    library.run(case)                   (refusal, value, output slice, working slice) of a case of generate.py
    library.lets_in(size, classes, table, document, format=0)    True or False; the format 1 is XML text
    loaded(name, path)                  a script of tests or tools as a module
"""

import ctypes
import importlib.machinery
import importlib.util
import os
import subprocess
import sys

ROOT = os.path.dirname(os.path.dirname(os.path.abspath(__file__)))
CRATES = os.path.join(ROOT, 'crates')
ARCHIVE = os.path.join(CRATES, 'exports', 'out', 'libexports.a')

sys.dont_write_bytecode = True
sys.path.insert(0, os.path.join(ROOT, 'tests', 'second_validator'))
import generate  # noqa: E402
import reference as ref  # noqa: E402


def loaded(name, path):
    """A script as a module."""
    loader = importlib.machinery.SourceFileLoader(name, path)
    module = importlib.util.module_from_spec(importlib.util.spec_from_loader(name, loader))
    loader.exec_module(module)
    return module


def newest(folder):
    """When a file of the crates below the folder was last changed, apart from what rt makes in their out/."""
    changed = 0
    for place, folders, names in os.walk(folder):
        if 'out' in folders:
            folders.remove('out')
        changed = max([changed, *(os.path.getmtime(os.path.join(place, name)) for name in names)])
    return changed


def build_archive(crate='exports'):
    """The path of the crate's archive, from proved crates; it is made anew where a crate changed since."""
    folder = os.path.join(CRATES, crate)
    archive = os.path.join(folder, 'out', 'lib%s.a' % crate)
    if not os.path.exists(archive) or newest(CRATES) >= os.path.getmtime(archive):
        run = subprocess.run(['rt', 'lib'], cwd=folder, stdout=subprocess.PIPE, stderr=subprocess.STDOUT)
        if run.returncode != 0:
            sys.exit(run.stdout.decode()[-2000:])
    return archive


def build_shared(crate='exports'):
    """The path of a shared object of all of the crate's archive."""
    archive = build_archive(crate)
    shared = os.path.splitext(archive)[0] + '.so'
    if not os.path.exists(shared) or os.path.getmtime(shared) < os.path.getmtime(archive):
        subprocess.run(['gcc', '-shared', '-o', shared, '-Wl,--whole-archive', archive, '-Wl,--no-whole-archive'], check=True)
    return shared


def words(length, fill):
    """A working slice of one word again and again; of length 1 at least, so that there is something to point to."""
    made = (ctypes.c_uint32 * max(length, 1))()
    if fill:
        ctypes.memmove(made, fill.to_bytes(4, sys.byteorder) * length, 4 * length)
    return made


class Library:
    def __init__(self):
        self.library = ctypes.CDLL(build_shared())
        self.functions = {}
        for call, name in generate.CALL_NAMES.items():
            if hasattr(self.library, 'cogarrune_' + name):
                function = getattr(self.library, 'cogarrune_' + name)
                function.restype = ctypes.c_uint64
                self.functions[call] = function
        self.calls = tuple(self.functions)

    def run(self, case):
        call = case.call
        work = words(case.work_len, case.work_fill)
        out = ctypes.create_string_buffer(generate.OUTPUT_FILL[:case.out_len], max(case.out_len, 1))
        arguments = [ctypes.c_uint32(case.size), case.classes, ctypes.c_size_t(len(case.classes))]
        if call in generate.DOCUMENT_FIRST:
            arguments.append(ctypes.c_uint32(case.format))
        arguments += [case.first, ctypes.c_size_t(len(case.first))]
        if call == generate.LETS_IN or call in generate.BY_DOCUMENT:
            arguments.append(ctypes.c_uint32(case.format))
        if call == generate.LETS_IN or call in generate.BY_TABLE + generate.BY_DOCUMENT:
            arguments += [case.second, ctypes.c_size_t(len(case.second))]
        if call == generate.LABEL_NAME:
            arguments.append(ctypes.c_size_t(case.label))
        if call in generate.WRITING:
            arguments += [out, ctypes.c_size_t(case.out_len)]
        answer = self.functions[call](*arguments, work, ctypes.c_size_t(case.work_len))
        return answer >> 32, answer % 2**32, out.raw[:case.out_len], bytes(work)[:4 * case.work_len]

    def lets_in(self, size, classes, table, document, format=ref.DOCUMENT_FILE):
        words = ref.limits_of(size).words
        refusal, value, _, _ = self.run(generate.Case(generate.LETS_IN, size, classes, words, 0, 0, 0, format, table, document))
        if refusal:
            raise ref.Refused(refusal)
        return value == 1
