"""Texts of any length that desks are sent, for measures."""


def statements(count, first=0, superseded=1):
    """A function, and PTFs for it with two holds each. Each supersedes so many APARs."""
    lines = ["++FUNCTION(HBB7790).", "++VER(Z038)."]
    for i in range(first, first + count):
        ver = "++VER(Z038) FMID(HBB7790) PRE(U%d)" % max(0, i - 7)
        lines += ["++PTF(U%d)." % i, ver, "SUP(%s)." % " ".join(apars(i, superseded))]
    for i in range(first, first + count):
        lines += ["++HOLD(U%d) ERROR FMID(HBB7790) REASON(B%d) CLASS(PE) DATE(12045)." % (i, i)]
        lines += ["++HOLD(U%d) SYSTEM FMID(HBB7790) REASON(IPL)." % i]
    return ("\n".join(lines) + "\n").encode()


def apars(place, superseded):
    """The APARs that the PTF at this place supersedes."""
    return ["A%d" % place] + ["%s%d" % (letter, place) for letter in "CDEFGHIJ"[: superseded - 1]]


def zone(count, state="APPLIED"):
    return ("SYSMOD,STATE\nHBB7790,APPLIED\n" + "".join("U%d,%s\n" % (i, state) for i in range(count - 1))).encode()
