"""Command texts for bench/dry, the same ones in each run."""

# A point has values below SIDE in the texts of inserts and searches.
SIDE = 1_000_000


def numbers(state):
    """A linear congruential generator (Knuth's multiplier for 64 bits), of which the upper half is used."""
    while True:
        state = (state * 6364136223846793005 + 1442695040888963407) % 2**64
        yield state >> 32


def words(values):
    return " ".join(map(str, values))


def mixed(state, count, attributes, sessions=8):
    """Of ten lines six are inserts, one is a delete, two are lookups and one is a search, each by one of so many sessions. A point's
    values are below 1,000, the first one is its session's alone; a box begins below 1,000 and is up to 50 wide."""
    drawn = numbers(state)

    def below(limit):
        return next(drawn) % limit

    for number in range(1, count + 1):
        session, kind = below(sessions) + 1, below(10)
        if kind == 9:
            corners = [(low, low + below(50)) for low in (below(1000) for _ in range(attributes))]
            yield f"{session} search {words(value for pair in corners for value in pair)}"
            continue
        point = words([below(1000 // sessions) * sessions + session - 1] + [below(1000) for _ in range(attributes - 1)])
        if kind < 6:
            yield f"{session} insert {point} ={number}"
        else:
            yield f"{session} {'delete' if kind == 6 else 'lookup'} {point}"


def inserts(count, attributes):
    """Inserts of points that are spread over all values below SIDE."""
    drawn = numbers(7)
    for number in range(1, count + 1):
        yield f"1 insert {words(next(drawn) % SIDE for _ in range(attributes))} ={number}"


def searches(count, attributes, share):
    """Searches whose boxes cover this share of the values of each attribute."""
    drawn = numbers(11)
    width = max(1, int(SIDE * share))
    for _ in range(count):
        lows = [next(drawn) % (SIDE - width + 1) for _ in range(attributes)]
        yield f"1 search {words(value for low in lows for value in (low, low + width - 1))}"


def spread(count):
    """Points of two attributes that are spread over all values below SIDE."""
    drawn = numbers(13)
    return [(next(drawn) % SIDE, next(drawn) % SIDE) for _ in range(count)]


def in_order(count):
    """Points of two attributes, each of which has greater values than the one before."""
    return [(value, value) for value in range(count)]


def scrambled(points):
    """The same points in an order without a plan."""
    drawn = numbers(17)
    return [point for _, point in sorted((next(drawn), point) for point in points)]


def insert_all(points, sessions):
    """Inserts of these points by so many sessions in turn."""
    for number, point in enumerate(points):
        yield f"{number % sessions + 1} insert {words(point)} =record{number % 10}"


def look_up_all(points, sessions):
    """Lookups of these points by so many sessions in turn."""
    for number, point in enumerate(points):
        yield f"{number % sessions + 1} lookup {words(point)}"


def replace_some(points, count):
    """So many changes of session 1: deletes and inserts in turn of points that are drawn from these."""
    drawn = numbers(19)
    for number in range(count // 2):
        point = words(points[next(drawn) % len(points)])
        yield f"1 delete {point}"
        yield f"1 insert {point} =record{number % 10}"


def look_up_some(points, count):
    """So many lookups of session 1, of points that are drawn from these."""
    drawn = numbers(23)
    for _ in range(count):
        yield f"1 lookup {words(points[next(drawn) % len(points)])}"


def schedule(steps, sessions, poster):
    """Step lines of at least so many steps of so many sessions in turn, with one of the poster behind each 20, or without."""
    for first in range(0, steps, 20):
        turns = ["1x20"] if sessions == 1 else [str((first + at) % sessions + 1) for at in range(20)]
        yield f"step {words(turns)}{' p' if poster else ''}"


def rounds(steps, sessions, each):
    """Step lines of at least so many steps of sessions that take so many each in turn, with four of the poster behind each session."""
    line = f"step {' '.join(f'{session}x{each} px4' for session in range(1, sessions + 1))}"
    for _ in range(0, steps, sessions * each):
        yield line
