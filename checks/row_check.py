"""How rows are tried: each has a name, what is given and what is wanted."""


def tell(rows):
    """Prints each row that is otherwise, and how many there are. The status is 1 where there is one, or no row at all."""
    count = wrong = 0
    for name, given, wanted in rows:
        count += 1
        if given != wanted:
            wrong += 1
            print(f"{name}: {given}, not {wanted}")
    print(f"{count} rows, {wrong} are otherwise")
    return wrong > 0 or count == 0
