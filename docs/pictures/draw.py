"""The pictures of this folder: the layers, one change, the argument, and the slots of the second evening.

    python3 docs/pictures/draw.py            draws them anew
    python3 docs/pictures/draw.py compare    ends with a line for each that differs from its file, or is wrong

Two of them read the tree: layers takes the trusted definitions from docs/TRUSTED.md, and slots takes what reached
switch 5 from examples/second-evening.explained.txt.
"""
import os
import sys

import argument
import change
import layers
import slots

HERE = os.path.dirname(os.path.abspath(__file__))
PICTURES = {"layers": layers, "change": change, "argument": argument, "slots": slots}


def main():
    root = os.path.dirname(os.path.dirname(HERE))
    drawn = {name: module.drawn(root) for name, module in PICTURES.items()}
    if sys.argv[1:] == ["compare"]:
        faults = layers.faults(root)
        for name, svg in drawn.items():
            with open(os.path.join(HERE, name + ".svg"), encoding="ascii") as file:
                if file.read() != svg:
                    faults.append("docs/pictures/%s.svg is not what docs/pictures/draw.py draws" % name)
        sys.exit("\n".join(faults) or 0)
    if sys.argv[1:]:
        sys.exit(__doc__)
    for name, svg in drawn.items():
        with open(os.path.join(HERE, name + ".svg"), "w", encoding="ascii") as file:
            file.write(svg)


if __name__ == "__main__":
    main()
