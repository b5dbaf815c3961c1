"""Comparing, for all tests here: each comparison counts, and the first that differ are shown."""
compared = wrong = 0


def same(is_, must, what):
    global compared, wrong
    compared += 1
    if is_ != must:
        wrong += 1
        if wrong <= 20:
            print(f'{what}:\n  is   {is_!r}\n  must {must!r}'[:900])


def ended(what, more=''):
    """The last line, and the status: 0 where something was compared and nothing differs."""
    print(f'compared {compared} {what}, {wrong} wrong{more}')
    return wrong != 0 or compared == 0
