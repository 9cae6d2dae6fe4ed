"""Scripts on which the speed of the program is told. Each is the same at every call."""

import random

SEED = 7
LOW, HIGH = -(2**31), 2**31 - 1
COUNT = 50_000
FEWER = 20_000

STREETS = ("High Street,Station Road,Main Street,Park Road,Church Street,Church Road,London Road,Victoria Road,Green Lane,"
           "Manor Road,Church Lane,Park Avenue,The Avenue,The Crescent,Queens Road,New Road,Grange Road,Kings Road,Kingsway,"
           "Windsor Road,Highfield Road,Mill Lane,Alexander Road,York Road,St. John's Road,Main Road,Broadway,King Street,"
           "The Green,Springfield Road,George Street,Park Lane,Victoria Street,Albert Road").split(",")
TOWNS = ("London,Oxford,Ely,Cambridge,Leeds,York,Bath,Bristol,Hull,Exeter,Durham,Truro,Wells,Ripon,Derby,Lincoln,Norwich,"
         "Preston,Salford,Coventry,Chester,Carlisle,Worcester,Winchester").split(",")
WORDS = ("about blog cart data edit feed home item join keys list maps news open page quiz read sale tags user view wiki year "
         "zone products category articles images archive search").split()
ENDINGS = ["com", "org", "net", "co.uk"]


def row(number):
    """The rows go by blocks of 200."""
    return f"{number // 200}.{number % 200 + 1}"


def uniform(rng, count):
    return [f"{rng.randint(LOW, HIGH)},{rng.randint(LOW, HIGH)}" for _ in range(count)]


def on_a_line(_, count):
    return [f"{number},{number}" for number in range(count)]


def address(rng):
    return f"{rng.randint(1, 400)} {rng.choice(STREETS)}, {rng.choice(TOWNS)} {rng.randint(1, 99)}"


def url(rng):
    host = f"{rng.choice(WORDS)}{rng.randint(1, 300)}.example.{rng.choice(ENDINGS)}"
    path = "/".join(rng.choice(WORDS) for _ in range(rng.randint(1, 4)))
    return f"https://www.{host}/{path}/{rng.randint(1, 10**6)}"


def texts(rng, count):
    return [f'"{address(rng) if rng.random() < 0.5 else url(rng)}"' for _ in range(count)]


def digit(keys):
    """The keys, each with a number of one digit beside it."""
    return lambda rng, count: [f"{key} value {at % 10}" for at, key in enumerate(keys(rng, count))]


def digits(keys):
    """The keys, each with a number of 19 or 20 digits beside it."""
    return lambda rng, count: [f"{key} value {rng.randint(10**18, 2**64 - 1)}" for key in keys(rng, count)]


def inserts(keys):
    return [f"insert {row(number)} {key}" for number, key in enumerate(keys)]


def mixed(rng, keys):
    """Inserts; half of the rows are deleted and swept, inserted again under other rows, and half of those deleted and swept."""
    count = len(keys)
    gone = rng.sample(range(count), count // 2)
    lines = inserts(keys) + [f"delete {row(number)}" for number in gone] + ["vacuum"]
    lines += [f"insert {row(count + at)} {keys[number]}" for at, number in enumerate(gone)]
    lines += [f"delete {row(count + at)}" for at in range(count // 4)]
    return lines + ["vacuum", "find all", "stat"]


def equalities(rng, keys):
    return inserts(keys) + [f"find where eq {key}" for key in rng.choices(keys, k=FEWER)]


def in_lanes(count, lines):
    """The lines dealt to so many lanes in turn."""
    dealt = [line for lane in range(count) for line in ["lane", *lines[lane::count]]]
    return ["together", *dealt, "end"]


def one_lane(_, keys):
    return in_lanes(1, inserts(keys))


def one_lane_of_equalities(rng, keys):
    return inserts(keys) + in_lanes(1, [f"find where eq {key}" for key in rng.choices(keys, k=len(keys) // 4)])


def plain(_, keys):
    return inserts(keys)


# What is told of each: its name, the class, the keys and how many, what is done with them, and the aim in millions of instructions.
WORKLOADS = [
    ("50,000 uniform points, quad", "quad", uniform, COUNT, plain, 225),
    ("the same, k-d", "kd", uniform, COUNT, plain, 275),
    ("50,000 addresses and URLs, radix", "radix", texts, COUNT, plain, 312),
    ("mixed, uniform points, quad", "quad", uniform, COUNT, mixed, 400),
    ("mixed, k-d", "kd", uniform, COUNT, mixed, 465),
    ("mixed, addresses and URLs, radix", "radix", texts, COUNT, mixed, 540),
    ("20,000 points on a line, quad", "quad", on_a_line, FEWER, plain, 650),
    ("50,000 uniform points and 20,000 equalities, quad", "quad", uniform, COUNT, equalities, 420),
    ("the same, addresses and URLs, radix", "radix", texts, COUNT, equalities, 590),
    ("20,000 uniform points in one lane, quad", "quad", uniform, FEWER, one_lane, 210),
    ("20,000 addresses and URLs in one lane, radix", "radix", texts, FEWER, one_lane, 340),
    ("20,000 uniform points, then 5,000 equalities in one lane, quad", "quad", uniform, FEWER, one_lane_of_equalities, None),
    ("50,000 uniform points with a digit, quad", "quad value", digit(uniform), COUNT, plain, None),
    ("the same, k-d, with a digit", "kd value", digit(uniform), COUNT, plain, None),
    ("50,000 addresses and URLs with a digit, radix", "radix value", digit(texts), COUNT, plain, None),
    ("50,000 uniform points with 19 or 20 digits, quad", "quad value", digits(uniform), COUNT, plain, None),
    ("the same, k-d, with 19 or 20 digits", "kd value", digits(uniform), COUNT, plain, None),
    ("50,000 addresses and URLs with 19 or 20 digits, radix", "radix value", digits(texts), COUNT, plain, None),
]


def script(index_class, keys, count, work):
    """The script of a workload, as bytes."""
    rng = random.Random(SEED)
    lines = [f"class {index_class}", *work(rng, keys(rng, count))]
    return "\n".join(lines).encode() + b"\n"
