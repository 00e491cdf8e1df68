"""Cases for packed words: the fields of an inner word, the bits of a leaf word, and the masked operations."""

from random import Random

from compare import case
from model import word

TOP = 2 ** 64 - 1
COUNTERS = ("occ", "tcnt", "tmax", "dcnt", "dmax")


def near_wrap(width):
    """A counter's values at and beside its wrap."""
    top = 2 ** width - 1
    return sorted({0, 1, top - 1, top})


def deltas(width, rng):
    """What is added: small, at and beside the field's width, and far beyond it."""
    beyond = 2 ** width
    return [0, 1, 2, beyond - 2, beyond - 1, beyond, beyond + 1, 2 ** 63, TOP - 1, TOP, rng.getrandbits(64)]


def random_inner(rng):
    """An inner word each of whose fields is as likely beside its wrap as anywhere."""
    values = []
    for width in word.WIDTH:
        values.append(rng.choice([*near_wrap(width), rng.getrandbits(width), rng.getrandbits(width)]))
    return word.pack(word.Inner(*values))


def words_with(name, rng):
    """Words whose field `name` is beside its wrap, among neighbours that are all 0, all 1, or random."""
    for value in near_wrap(getattr(word.WIDTH, name)):
        for others in (0, TOP, random_inner(rng), random_inner(rng)):
            yield word.pack(word.unpack(others)._replace(**{name: value}))


def readers():
    rng = Random("readers")
    for name in COUNTERS:
        chosen = [*words_with(name, rng), *(random_inner(rng) for _ in range(500)), *(1 << b for b in range(64))]
        for w in chosen:
            yield case(name, [w], getattr(word.unpack(w), name))


def adders():
    rng = Random("adders")
    for name in COUNTERS:
        width = getattr(word.WIDTH, name)
        for w in [*words_with(name, rng), *(random_inner(rng) for _ in range(100))]:
            for delta in deltas(width, rng):
                yield case(f"add_{name}", [w, delta], word.add(w, name, delta))


def field_places():
    """Every (shift, width) of a field of 1 to 63 bits inside the word."""
    for width in range(1, 64):
        for low in range(65 - width):
            yield low, width


def fields_anywhere():
    rng = Random("fields anywhere")
    for low, width in field_places():
        for w in (TOP, rng.getrandbits(64), rng.getrandbits(64)):
            yield case("field", [w, low, width], word.field_at(w, low, width))


def adds_anywhere():
    rng = Random("adds anywhere")
    for low, width in field_places():
        for value in near_wrap(width):
            others = rng.getrandbits(64)
            w = word.add_field_at(others, low, width, value - word.field_at(others, low, width))
            delta = rng.choice(deltas(width, rng))
            yield case("add_field", [w, low, width, delta], word.add_field_at(w, low, width, delta))


def adds_to_all_fields():
    """One add over several fields, with every field beside its wrap often, so that a carry would be seen."""
    rng = Random("all fields")
    for _ in range(12000):
        w, added = random_inner(rng), random_inner(rng)
        yield case("add_fields", [w, added], word.add_fields(w, added))


def returned_occ():
    """Occ - 1 and TCnt + 1 in one add, for words with Occ set and clear, and TCnt at 32,767 and elsewhere."""
    rng = Random("returned")
    chosen = [*words_with("tcnt", rng), *words_with("occ", rng), *(random_inner(rng) for _ in range(6000))]
    chosen += [word.pack(word.unpack(w)._replace(occ=1, tcnt=32767)) for w in chosen[:500]]
    for w in chosen:
        yield case("return_occ", [w], word.return_occ(w))


def wanted_inside_a_leaf():
    """Every part of a leaf, the whole leaf among them, at the first, a middle and the last leaf of a tree of 12 levels."""
    for edge in (0, 64, 4096, 2 ** 28 - 64):
        for low in range(64):
            for high in range(low + 1, 65):
                l, r = edge + low, edge + high
                yield case("wanted_bits", [edge, l, r], word.wanted(edge, l, r))


def wanted_beyond_a_leaf():
    """Windows that begin before the leaf, end after it, or both, as the two leaves of a cover have them."""
    rng = Random("beyond")
    for edge in (64, 128, 4096, 2 ** 28 - 128, 64 * rng.randrange(2, 2 ** 20)):
        before = [0, edge - 64, edge - 1]
        after = [edge + 65, edge + 128, 2 ** 40, TOP]
        inside = range(edge, edge + 65)
        windows = [(l, r) for l in before for r in [*inside[1:], *after]]
        windows += [(l, r) for l in inside[:-1] for r in after]
        for l, r in windows:
            yield case("wanted_bits", [edge, l, r], word.wanted(edge, l, r))


def random_mask(rng):
    """Few bits, many bits, a run of bits, none and all."""
    low = rng.randrange(64)
    run = (2 ** rng.randrange(1, 65 - low) - 1) << low
    few = 1 << rng.randrange(64) | 1 << rng.randrange(64)
    return rng.choice([0, TOP, run, few, TOP ^ few, rng.getrandbits(64), rng.getrandbits(64) & rng.getrandbits(64)])


def masked_swaps():
    """A third match under the mask, a third differ there in one bit, a third are random."""
    rng = Random("masked swaps")
    cases = []
    for turn in range(9000):
        w, mask = rng.getrandbits(64), random_mask(rng)
        matching = w & mask | rng.getrandbits(64) & ~mask
        other = matching ^ (mask & -mask)
        arguments = [w, mask, (matching, other, rng.getrandbits(64))[turn % 3], random_mask(rng), rng.getrandbits(64)]
        cases.append(case("masked_swap", arguments, word.masked_swap(*arguments)))
    return both_common(cases)


def taken_and_given_bits():
    """The wanted bits all 0, all 1, or mixed, among other bits that are random."""
    rng = Random("taken and given")
    cases = []
    for turn in range(9000):
        wanted, others = random_mask(rng), rng.getrandbits(64)
        mixed = others ^ (wanted & -wanted)
        w = (others & ~wanted, others | wanted, mixed)[turn % 3]
        cases.append(case("take_bits", [w, wanted], word.take_bits(w, wanted)))
        cases.append(case("give_bits", [w, wanted], word.give_bits(w, wanted)))
    return both_common(cases)


def both_common(cases):
    """The cases, after seeing that success and failure are each a fifth of them at least."""
    done = sum(case.expected[0] for case in cases)
    if not len(cases) <= 5 * done <= 4 * len(cases):
        raise SystemExit(f"{done} of {len(cases)} swaps succeed: too few or too many to test both")
    return cases


SUITES = {
    "word, each counter read": readers,
    "word, each counter added to": adders,
    "word, a field read at every place and width": fields_anywhere,
    "word, a field added to at every place and width": adds_anywhere,
    "word, one add over all fields": adds_to_all_fields,
    "word, Occ returned": returned_occ,
    "leaf, wanted bits of every part of a leaf": wanted_inside_a_leaf,
    "leaf, wanted bits of a window beyond the leaf": wanted_beyond_a_leaf,
    "word, masked compare-and-swap": masked_swaps,
    "leaf, bits taken and given back": taken_and_given_bits,
}
