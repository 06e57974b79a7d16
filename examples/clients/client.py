#!/usr/bin/env python3
"""Sends lines to `lexical`, and keeps a small tree by the operations of its replies. Each line is answered before the next
one is read: so write a line, flush it, and read one reply."""
import json, subprocess, sys

lexical = subprocess.Popen(sys.argv[1:] or ['./lexical'], stdin=subprocess.PIPE, stdout=subprocess.PIPE)
hosts = {0: {'tag': 'div', 'text': None, 'children': []}}  # by id; children are ids

def apply(name, id, *rest):
    if name == 'create': hosts[id] = dict(zip(('key', 'tag', 'attributes', 'text'), rest), children=[])
    if name == 'text': hosts[id]['text'] = rest[0]
    if name == 'attr': hosts[id]['attributes'][rest[0]] = rest[1]
    if name in ('place', 'drop'):  # what is placed may stand somewhere already
        moved = rest[0] if name == 'place' else id
        for host in hosts.values(): host['children'] = [child for child in host['children'] if child != moved]
    if name == 'place':
        siblings, before = hosts[id]['children'], rest[1]
        siblings.insert(len(siblings) if before is None else siblings.index(before), moved)

def send(line):
    lexical.stdin.write(json.dumps(line).encode() + b'\n')
    lexical.stdin.flush()
    reply = json.loads(lexical.stdout.readline())
    for operation in reply.get('ops', []): apply(*operation)
    return reply

def show(id, indent=''):
    print(indent + hosts[id]['tag'], json.dumps(hosts[id]['text']))
    for child in hosts[id]['children']: show(child, indent + '  ')

send({'update': [{'append': 'Hello'}, {'select': {'anchor': [2, 5, 'text'], 'focus': [2, 5, 'text']}}]})
send({'dispatch': 'insert-text', 'payload': ', world'})
print(json.dumps(send({'dispatch': 'insert-paragraph'}), separators=(',', ':')))
show(0)
