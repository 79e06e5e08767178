"""The argument of demand 3: from the premises to a run that is safe, and to all changes made."""
from page import BLUE, GREEN, GREY, LINE, ORANGE, PALE, Page

LEFT, RIGHT, W = 20, 460, 420
HIGH, LAST = 104, 70
ROWS = (206, 340, 474, 608)
PREMISES = (
    ("P1 few stray", "At most floor((n-1)/3) of n controllers stray."),
    ("P2 one list", "The others have one playbook and take one agreed list, in order."),
    ("P3 good tags", "No tag of a rule-keeping controller and a switch is forged."),
    ("P4 switches", "They keep the rules and lose no state."),
    ("P5 full rounds", "All have taken the same decisions. Reports, then shares arrive."),
)
# Column, row, title, words, and what the step rests on.
STEPS = (
    (LEFT, 0, "1 Every quorum has a rule-keeping controller",
     "A quorum is one more than may stray. A switch counts slots, one for each controller. So a stray counts once, "
     "whatever it sends and however often.", "from P1, P4"),
    (LEFT, 1, "2 What is applied was agreed",
     "What that controller asked for was ready there: an agreed change, and all that it waits for is applied. A "
     "late share is still right, since applied numbers only grow.", "from 1, P2, P3"),
    (LEFT, 2, "3 What is made is closed downwards",
     "All that a made change waits for was made before it. Lower numbers on its switch are among that. So none is "
     "skipped, and none is made twice.", "from 2, P4"),
    (RIGHT, 1, "4 The switch has room for it",
     "A playbook names at most 64 prefixes with lengths on a switch (question 37). So question 19 refuses no "
     "agreed change. Only this half of the argument needs that.", "from 3, P2"),
    (RIGHT, 2, "5 A round makes the lowest unmade change",
     "All that it waits for is lower, so made. The reports make it ready at each rule-keeping controller. These "
     "are a quorum, and their shares stay in their slots.", "from 3, 4, P1, P5"),
)
ENDS = (
    (LEFT, "Safe", "After every list of calls the flow tables are those of the ideal controller that made the agreed "
     "changes one by one."),
    (RIGHT, "Complete", "After as many full rounds as changes remain, all are made, however far ahead some controllers "
     "are."),
)


def quorums(page):
    """The worst quorum that there can be: every stray, and one controller that keeps the rules."""
    page.words(RIGHT, ROWS[0] - 12, "The worst quorum, of 4, 7 and 10 controllers", colour=GREEN)
    for at, n in enumerate((4, 7, 10)):
        stray, y = (n - 1) // 3, ROWS[0] + 16 + at * 30
        page.words(RIGHT + 10, y + 4, "n = %d" % n)
        page.rect(RIGHT + 64, y - 12, 20 * (stray + 1) + 6, 24, stroke=GREEN, thick=2, round_=12)
        for dot in range(n):
            colour = ORANGE if dot < stray else BLUE
            shown = (RIGHT + 77 + dot * 20, y, PALE[colour], colour)
            page.drawn.append("<circle cx='%g' cy='%g' r='7' fill='%s' stroke='%s'/>" % shown)
    page.words(RIGHT + 290, ROWS[0] + 20, "stray", colour=ORANGE)
    page.words(RIGHT + 290, ROWS[0] + 40, "keeps the rules", colour=BLUE)


def boxes(page):
    for at, (title, words) in enumerate(PREMISES):
        page.box(LEFT + at * 174, 66, 164, 96, title, words, ORANGE)
    for x, row, title, words, rests in STEPS:
        page.box(x, ROWS[row], W, HIGH, title, words, BLUE)
        page.words(x + W - 9, ROWS[row] + HIGH - 9, rests, size=11.5, colour=GREY, anchor="end")
    for x, title, words in ENDS:
        page.box(x, ROWS[3], W, LAST, title, words, GREEN)


def arrows(page):
    for x, row, *_ in STEPS:
        page.arrow((x + W / 2, ROWS[row] + HIGH), (x + W / 2, ROWS[row + 1]))
    page.arrow((LEFT + W, ROWS[2] + HIGH / 2), (RIGHT, ROWS[2] + HIGH / 2))
    page.drawn.append(
        "<path d='M450 %gV%g' stroke='%s' stroke-dasharray='2 4'/>" % (ROWS[1], ROWS[2] + 30, LINE)
    )


def drawn(_):
    page = Page(
        698, "Why a run is safe, and why it comes to its end",
        "Five steps from the premises: a rule-keeping controller in every quorum, agreed, closed, room, rounds.",
    )
    page.words(LEFT, 56, "What is assumed (docs/PROVED.md has every premise); P5 for the right half only", colour=GREY)
    page.words(LEFT, ROWS[0] - 12, "Whatever is late, lost or repeated", colour=GREY)
    page.words(RIGHT, ROWS[1] - 12, "Where messages get through", colour=GREY)
    boxes(page)
    quorums(page)
    arrows(page)
    return page.svg()
