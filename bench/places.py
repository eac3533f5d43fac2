#!/usr/bin/env python3
"""Counts the instructions of small statements with valgrind: beside no arrays but the eight that they are made of, and beside
500 others, where these are the newest, stand behind seven, stand in the middle, and are the oldest.

bench/places.py PROGRAM [NAME..] counts those statements, or all of them. A statement's count is the difference of two scripts
that repeat it 900 and 300 times."""
import re
import subprocess
import sys
from concurrent.futures import ThreadPoolExecutor

MADE = ('$x = sequence(5); $w = sequence(5); $i = pdl [1,3]; $j = pdl [0,1]; $a = $x->slice("1:3"); $b = $w->slice("1:3"); '
        '$c = $x->index($i); $d = $w->index($i);')

STATEMENTS = {
    'add_one': '$x += 1;',
    'add': '$z = $x + $w;',
    'add_to': '$x += $w;',
    'negate': '$z = -$x;',
    'assign': '$x .= $w;',
    'assign_one': '$x .= 1;',
    'bind': '$z = $x;',
    'copy': '$z = $x->copy;',
    'print': 'p $x;',
    'sizes': 'p $x->nelem;',
    'sum': '$s = $x->sum;',
    'sumover': '$s = $x->sumover;',
    'inner': '$s = inner($x,$w);',
    'matmult': '$z = matmult($x->dummy(0),$w->dummy(1));',
    'slice': '$x->slice("1:3") .= 1;',
    'slice_to_slice': '$x->slice("1:3") .= $w->slice("1:3");',
    'slice_to_itself': '$x->slice("1:3") .= $x->slice("0:2");',
    'slice_of_slice': '$x->slice("1:3")->slice("0:1") .= 1;',
    'places': '$x->slice("1") .= $w->slice("2");',
    'bind_slice': '$v = $x->slice("1:3");',
    'add_slice': '$z = $x->slice("1:3") + 1;',
    'add_slices': '$z = $x->slice("1:3") + $w->slice("1:3");',
    'sum_slice': '$s = $x->slice("1:3")->sum;',
    'print_slice': 'p $x->slice("1:3");',
    'dummy': '$z = $x->dummy(0) + 1;',
    'moved': '$x->mv(0,0) .= 1;',
    'index': '$x->index($i) .= 1;',
    'index_to_index': '$x->index($i) .= $w->index($i);',
    'add_index': '$x->index($i) += $w->index($i);',
    'read_index': '$z = $x->index($i);',
    'add_indexes': '$z = $x->index($i) + $w->index($i);',
    'index_of_index': '$x->index($i)->index($j) .= 1;',
    'slice_of_index': '$x->index($i)->slice("0:1") .= $w->slice("1:2");',
    'where': '$x->where($x > 2) .= 1;',
    'where_mask': '$x->where($w) .= 1;',
    'range': '$x->range(pdl([1]),pdl([2])) .= 1;',
    'kept_slice': '$a .= 1;',
    'add_to_kept_slice': '$a += 1;',
    'kept_slices': '$a .= $b;',
    'add_kept_slices': '$z = $a + $b;',
    'bind_kept_slice': '$z = $a;',
    'kept_index': '$c .= 1;',
    'kept_indexes': '$c .= $d;',
    'add_kept_indexes': '$z = $c + $d;',
}


def others(first, last):
    return ' '.join(f'$y{number} = {number};' for number in range(first, last + 1))


PLACES = {
    'none': MADE,
    'newest': others(1, 500) + MADE,
    'eighth': others(1, 493) + MADE + others(494, 500),
    'middle': others(1, 250) + MADE + others(251, 500),
    'oldest': MADE + others(1, 500),
}


def instructions(program, setup, statement, times):
    script = setup + '\n' + (statement + '\n') * times
    run = subprocess.run(['valgrind', '--tool=callgrind', '--callgrind-out-file=/dev/null', program],
                         input=script.encode(), stdout=subprocess.DEVNULL, stderr=subprocess.PIPE)
    if run.returncode:
        sys.exit(f'{statement} ends with status {run.returncode}: {run.stderr.decode()[-300:]}')
    return int(re.search(rb'Collected : (\d+)', run.stderr).group(1))


def cost(program, setup, statement):
    return (instructions(program, setup, statement, 900) - instructions(program, setup, statement, 300)) / 600


def main():
    program, names = sys.argv[1], sys.argv[2:] or list(STATEMENTS)
    with ThreadPoolExecutor(4) as pool:
        counts = {(name, place): pool.submit(cost, program, PLACES[place], STATEMENTS[name])
                  for name in names for place in PLACES}
        for name in names:
            alone = counts[name, 'none'].result()
            line = ' '.join(f'{place} {counts[name, place].result() / alone:5.3f}' for place in PLACES if place != 'none')
            print(f'{name:15} {alone:7.0f}  {line}', flush=True)


main()
