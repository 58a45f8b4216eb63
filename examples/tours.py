#!/usr/bin/env python3
"""Plans tours of lorries from a depot by the nearest neighbour: tours.py MAP.gr DEPOT CAPACITY <CUSTOMERS

A line of CUSTOMERS is VERTEX DEMAND, and each has to be visited once. A lorry goes from customer to customer, each time
to the nearest one that is left and whose demand it can still carry, and then back to the depot. What comes is a line
for each tour: its cost, what it carries, and its customers in order. Vertices count from 1, as in the file.

This is the simplest heuristic, to show where its costs come from: all pairs of the depot and the customers are one
question. A solver takes the same matrix. Needs the Python package hollowbowl (docs/PYTHON.md), the program, and the
scripts beside it.

A line that is not understood is refused with its number. So are a demand that is more than a lorry carries, and a
customer to whom no way leads, or from whom none leads back. Then the status is 2, and nothing is written.
"""

import sys

sys.dont_write_bytecode = True
import map_files
from to_gr import Arguments, Refused, run


def whole(word):
    """The whole number of a word, from 1."""
    if not (word.isascii() and word.isdigit() and int(word)):
        raise ValueError
    return int(word)


def read_customers(lines, most, count):
    """The demand of each customer, by its vertex."""
    demands = {}
    for line, text in enumerate(lines, 1):
        try:
            vertex, demand = map(whole, text.split())
        except ValueError:
            raise Refused(f"standard input:{line}: not VERTEX DEMAND") from None
        if vertex > count:
            raise Refused(f"standard input:{line}: there is no vertex {vertex}")
        if demand > most:
            raise Refused(f"standard input:{line}: a demand of {demand}, where a lorry carries {most}")
        if vertex in demands:
            raise Refused(f"standard input:{line}: vertex {vertex} stands twice")
        demands[vertex] = demand
    return demands


def check_reached(stops, costs, far):
    """Refuses a customer that can't be visited from the depot, which is the first stop."""
    for place, vertex in enumerate(stops):
        if costs[0][place] == far or costs[place][0] == far:
            raise Refused(f"no way leads to vertex {vertex} and back")


def tours(costs, demands, most):
    """Each tour, as its cost, its load and the places of its customers. Place 0 is the depot."""
    left = set(range(1, len(costs)))
    while left:
        place, load, cost, tour = 0, 0, 0, []
        while fitting := [each for each in left if load + demands[each] <= most]:
            nearest = min(fitting, key=lambda each: (costs[place][each], each))
            cost, load, place = cost + costs[place][nearest], load + demands[nearest], nearest
            tour.append(place)
            left.remove(place)
        yield cost + costs[place][0], load, tour


def main():
    parser = Arguments(__doc__)
    parser.add_argument("graph")
    parser.add_argument("depot", type=map_files.number_from(1, 1 << 28))
    parser.add_argument("capacity", type=map_files.number_from(1, 1 << 62))
    options = parser.parse_args()
    with map_files.kept(options.graph) as graph:
        if options.depot > graph.n:
            raise Refused(f"there is no vertex {options.depot}")
        with open(0, encoding="ascii", errors="surrogateescape", closefd=False) as lines:
            demands = read_customers(lines, options.capacity, graph.n)
        stops = [options.depot, *demands]
        places = [vertex - 1 for vertex in stops]
        costs = [[int(cost) for cost in row] for row in graph.matrix(places, places)]
    check_reached(stops, costs, map_files.package().INF)
    for cost, load, tour in tours(costs, [0, *demands.values()], options.capacity):
        print(cost, load, *(stops[place] for place in tour))


if __name__ == "__main__":
    run("tours.py", main, status=2)
