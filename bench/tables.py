"""Tables of text, for bench/run and firmware/test."""


def show(table, markdown):
    """Prints lines of cells, the first of which are the headings: in columns, or as Markdown."""
    table = list(table)
    widths = [max(len(line[at]) for line in table) for at in range(len(table[0]))]
    for number, line in enumerate(table):
        if markdown:
            print("| " + " | ".join(line) + " |")
            if number == 0:
                print("|---|" + "---:|" * (len(line) - 1))
        else:
            print("  ".join([line[0].ljust(widths[0])] + [cell.rjust(width) for cell, width in zip(line[1:], widths[1:])]))
    print()
