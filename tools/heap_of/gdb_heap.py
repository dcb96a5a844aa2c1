"""Runs inside gdb: asks it for the C library's symbols, and writes the heap that they lead to.

The variable PTM_HEAP names a folder: `report` is written there, and in `said` what there is to say, a line each, the
first word of which is `fault` or `remark`.
"""

import os
import re
import sys
import traceback

import gdb

sys.dont_write_bytecode = True
sys.path.insert(0, os.environ['PTM_HEAP_CODE'])

from heap_walk import Fault, Memory, report_of  # noqa: E402

NO_SYMBOLS = ("the C library's own symbols are missing, or gdb doesn't find them: Debian and Ubuntu have them in "
              'libc6-dbg, Fedora in glibc-debuginfo')


def value(*expressions, missing=None):
    """The first of these that gdb can say, as a number."""
    for expression in expressions:
        try:
            return int(gdb.parse_and_eval(expression))
        except (gdb.error, gdb.MemoryError, RuntimeError, ValueError):
            pass
    if missing is None:
        raise Fault('%s (%s)' % (NO_SYMBOLS, expressions[0]))
    return missing


def fields_of(name):
    """The offset of each field of a struct, and the struct itself."""
    try:
        found = gdb.lookup_type('struct ' + name)
    except gdb.error:
        raise Fault('%s (struct %s)' % (NO_SYMBOLS, name))
    return {field.name: field.bitpos // 8 for field in found.fields()}, found


def count_of(kind, field):
    """How many members an array has."""
    return kind[field].type.range()[1] + 1


def version():
    try:
        text = gdb.parse_and_eval('(char *)&__libc_version').string()
    except (gdb.error, gdb.MemoryError, UnicodeDecodeError):
        try:
            text = gdb.parse_and_eval("'version.c'::__libc_version").string()
        except (gdb.error, gdb.MemoryError, UnicodeDecodeError):
            raise Fault("%s (the C library's version)" % NO_SYMBOLS)
    found = re.match(r'(\d+)\.(\d+)', text)
    if not found:
        raise Fault('the C library names its version %.20r' % text)
    return int(found.group(1)), int(found.group(2))


def mappings(process, is_core):
    """What can be written of the process, without what is of files; of a core its parts."""
    if not is_core:
        with open('/proc/%d/maps' % process, encoding='utf-8', errors='replace') as file:
            found = [(line.split()[1], int(line.split()[4]), line.split('-')[0], line.split('-')[1].split(' ')[0])
                     for line in file if '[vvar' not in line and '[vsyscall' not in line]
        pairs = [(int(low, 16), int(high, 16)) for mode, node, low, high in found if mode[:2] == 'rw' and not node]
    else:
        text = gdb.execute('info files', to_string=True)
        pairs = [(int(low, 16), int(high, 16)) for low, high in
                 re.findall(r'^\s*0x([0-9a-f]+) - 0x([0-9a-f]+) is load\w*$', text, re.M)]
        pairs = [pair for pair in pairs if pair[1] - pair[0] >= 4096]
    joined = []
    for low, high in sorted(pairs):
        if joined and joined[-1][1] == low:
            joined[-1][1] = high
        else:
            joined.append([low, high])
    return [tuple(pair) for pair in joined]


def threads(remarks):
    """Of each thread its cache and its arena, by the numbers that the system gave them."""
    found, asked = [], 0
    for thread in sorted(gdb.selected_inferior().threads(), key=lambda thread: thread.ptid[1] or thread.ptid[2]):
        thread.switch()
        asked += 1
        cache = value("(unsigned long)'malloc.c'::tcache", '(unsigned long)tcache', missing=-1)
        arena = value("(unsigned long)'arena.c'::thread_arena", '(unsigned long)thread_arena', missing=0)
        found.append((max(cache, 0), arena))
        if cache == -1 and asked == len(found):
            remarks.append("the cache of a thread can't be found: gdb has no libthread_db for it, so its chunks are "
                           'written as live')
    return found


def arena_state():
    """Offsets in the record of an arena, and the lengths of its arrays."""
    state, kind = fields_of('malloc_state')
    heap, heap_kind = fields_of('_heap_info')
    cache, cache_kind = fields_of('tcache_perthread_struct')
    bins = kind['bins'].type.range()[1] + 1
    return {'state': state, 'state_bytes': kind.sizeof, 'fast_bins': kind['fastbinsY'].type.range()[1] + 1,
            'bins': bins, 'heap': heap, 'heap_bytes': heap_kind.sizeof, 'cache_entries': cache['entries'],
            'cache_lists': cache_kind['entries'].type.range()[1] + 1}


def facts(remarks):
    inferior = gdb.selected_inferior()
    is_core = not inferior.was_attached
    main_arena = value("(unsigned long)&'malloc.c'::main_arena", '(unsigned long)&main_arena')
    told = {'version': version(), 'main_arena': main_arena, 'mappings': mappings(inferior.pid, is_core)}
    told.update(arena_state())
    for name, field in (('sbrk_base', 'sbrk_base'), ('mmap_threshold', 'mmap_threshold'), ('mapped', 'n_mmaps'),
                        ('trim_threshold', 'trim_threshold'), ('mapped_bytes', 'mmapped_mem'),
                        ('most_mapped', 'max_n_mmaps'), ('most_mapped_bytes', 'max_mmapped_mem')):
        told[name] = value("(unsigned long)'malloc.c'::mp_.%s" % field, '(unsigned long)mp_.%s' % field)
    told['free_arenas'] = value("(unsigned long)'arena.c'::free_list", missing=0)
    told['next_arena'] = value("(unsigned long)reused_arena::next_to_use", missing=0)
    told['arena_limit'] = value("(unsigned long)arena_get2::narenas_limit", missing=0)
    told['threads'] = threads(remarks)
    return told


def read(at, length):
    try:
        return bytes(gdb.selected_inferior().read_memory(at, length))
    except (gdb.MemoryError, gdb.error, OverflowError):
        raise Fault("the memory at 0x%x can't be read" % at)


def main():
    folder, remarks = os.environ['PTM_HEAP'], []
    said = open(os.path.join(folder, 'said'), 'w', encoding='utf-8')
    try:
        text, more = report_of(Memory(read), facts(remarks))
        with open(os.path.join(folder, 'report'), 'w', encoding='ascii') as file:
            file.write(text)
        for remark in remarks + more:
            said.write('remark %s\n' % remark)
    except Fault as fault:
        said.write('fault %s\n' % fault)
    except Exception:       # the script runs where nobody sees a traceback
        said.write('fault %s\n' % traceback.format_exc().replace('\n', ' | '))
    said.close()


main()
