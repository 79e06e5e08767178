"""An evening and its links, to time bin/isolation: three labs on 16 switches, whose routes of five switches alternate.

    python3 bench/isolation.py evening DECISIONS PREFIXES [LABS]    prints the evening
    python3 bench/isolation.py links PREFIXES [LABS]                prints its links

Each decision moves every lab to another route, the far switch first, so a plan has 5 changes for each lab and prefix.
"""
import sys

ROUTES = 4


def hops(lab, route):
    """The switches of a route, from where the lab's packets come in."""
    return [lab] + [3 + (4 * lab + 3 * route + hop) % 13 for hop in range(4)]


def port(lab, route, hop):
    return 1 + lab * 100 + route * 10 + hop


def main():
    what, *rest = sys.argv[1:]
    *decisions, prefixes, labs = map(int, rest if len(rest) == (3 if what == "evening" else 2) else rest + ["3"])
    if what == "links":
        for lab in range(labs):
            name = "ABC"[lab]
            for route in range(ROUTES):
                way = hops(lab, route)
                for hop, switch in enumerate(way):
                    end = "switch %d" % way[hop + 1] if hop < 4 else "outside"
                    print("link switch %d port %d to %s of %s" % (switch, port(lab, route, hop), end, name))
            for prefix in range(prefixes):
                print("client %s 10.%d.%d.0/24 at switch %d" % (name, lab, prefix, lab))
        return
    print("controllers 4")
    for route in range(ROUTES):
        print("plan switch 0 cause %d" % route)
        for lab in range(labs):
            for prefix in range(prefixes):
                for hop, switch in reversed(list(enumerate(hops(lab, route)))):
                    rule = "10.%d.%d.0/24 port %d" % (lab, prefix, port(lab, route, hop))
                    print("  change flow %d switch %d %s" % (lab * prefixes + prefix, switch, rule))
    print("end")
    for serial in range(decisions[0]):
        print("agreed switch 0 serial %d cause %d" % (serial + 1, serial % ROUTES))


if __name__ == "__main__":
    main()
