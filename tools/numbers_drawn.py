"""Numbers as a drawing tool writes them, by document 02 (n): up to 40 digits before and 40 after the point, an exponent or none."""


def some(pick, count):
    return "".join(pick.choice("0123456789") for _ in range(count))


def drawn(pick):
    """A number without sign and suffix: any digits, mostly zeros, or near the ends of what f32 holds."""
    kind = pick.randrange(6)
    if kind == 0:  # as a drawing tool has them
        return f"{pick.randrange(10)}.{some(pick, 2)}e{pick.choice(['-', '-', '', '+'])}{pick.randrange(100 if pick.randrange(3) else 6)}"
    if kind == 1:  # the step to infinity, and one below
        return str(2**128 - 2**103 + pick.choice([-1, 0, 1, pick.randrange(-(2**103), 2**103)]))
    if kind == 2:  # among the very small ones
        return f"{pick.randrange(1, 10**6)}e-{pick.randrange(38, 54)}"
    whole, places = pick.choice([1, 1, 2, 5, 10, 11, 19, 20, 30, 39, 40]), pick.choice([0, 0, 1, 9, 10, 17, 30, 39, 40])
    digits = "0" * whole if pick.randrange(4) == 0 else some(pick, whole)
    if places:
        digits += "." + ("0" * (places - 1) + str(pick.randrange(10)) if pick.randrange(4) == 0 else some(pick, places))
    if pick.randrange(2):
        digits += pick.choice("eE") + pick.choice(["", "+", "-"]) + pick.choice([str, "{:02d}".format])(pick.randrange(100))
    return digits
