"""The sections of docs/CLAIMS.md that a script makes: each stands between the lines `<!-- tests/NAME -->` and `<!-- end -->`."""
import difflib
import sys

PAGE = "docs/CLAIMS.md"


def page():
    return open(PAGE, encoding="utf-8").read()


def settle(name, text, option):
    """Prints the section, or puts it into the page, or prints where the page has another one; says whether the page has this one."""
    if not option:
        print(text, end="")
        return True
    opening, end, whole = "<!-- tests/%s -->\n" % name, "<!-- end -->\n", page()
    if whole.count(opening) != 1 or end not in whole.split(opening)[1]:
        sys.exit("tests/%s: %s has no section %s" % (name, PAGE, opening.strip()))
    before, rest = whole.split(opening)
    held, after = rest.split(end, 1)
    if option == "--write":
        open(PAGE, "w", encoding="utf-8").write(before + opening + text + end + after)
        return True
    sys.stdout.writelines(difflib.unified_diff(held.splitlines(True), text.splitlines(True), PAGE, "tests/" + name, n=0))
    return held == text
