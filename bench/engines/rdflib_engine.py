"""Does a job of sparql.py with rdflib; run it with the system's Python, which has Debian's package python3-rdflib.

    /usr/bin/python3 bench/engines/rdflib_engine.py JOB

It prints the findings, one a line: the number of the rule's line and the numbers of the items.
"""

import json
import sys
import threading

import rdflib

DEEPEST = 200000            # calls: the parser of queries goes down many calls a bracket
STACK = 1 << 29             # bytes


# Runs updates over and over until they add nothing.
def repeat(graph, updates):
    before = -1
    while len(graph) != before:
        before = len(graph)
        for update in updates:
            graph.update(update)


# The number in the name of an item, as 12 in ..i12.
def number_of(item):
    return item.rsplit("/i", 1)[1]


# Loads the data, adds what follows, asks for the findings of each rule.
def run(job):
    graph = rdflib.Graph()
    graph.parse(data=job["data"], format="nt")
    for update in job["updates"]:
        graph.update(update)
    repeat(graph, job["steps"])
    for update in job["links"]:
        graph.update(update)
    for line, query in job["queries"]:
        for answer in graph.query(query):
            print(line, *(number_of(item) for item in answer))


# Reads the job and does it in a thread with a deep stack.
def main():
    with open(sys.argv[1]) as file:
        job = json.load(file)
    sys.setrecursionlimit(DEEPEST)
    threading.stack_size(STACK)
    thread = threading.Thread(target=run, args=(job,))
    thread.start()
    thread.join()


if __name__ == "__main__":
    main()
