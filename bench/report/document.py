"""Puts what stands in a file between the two marks of a section of a document. The text around the marks stays as it is."""
import sys


def main():
    document, section, source = sys.argv[1:]
    begin, end = f"<!-- {section}: written by a command -->", f"<!-- end of {section} -->"
    with open(document, encoding="utf-8") as file:
        text = file.read()
    if text.count(begin) != 1 or text.count(end) != 1:
        sys.exit(f"{document} has not one pair of marks {begin} and {end}")
    before, rest = text.split(begin)
    after = rest.split(end)[1]
    with open(source, encoding="utf-8") as file:
        written = file.read().strip()
    with open(document, "w", encoding="utf-8") as file:
        file.write(f"{before}{begin}\n\n{written}\n\n{end}{after}")


main()
