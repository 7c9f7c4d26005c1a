"""Intervals from a sample in strata, for aggregates of the rows that a question chooses.

A uniform sample is one of a single stratum. A stratum is three things: how many rows it has, how many of them are in the sample,
and the numbers of those of the sample that are chosen. Intervals are those of the central limit theorem, with the correction for
a finite table: of a count and a sum of the weighted totals, of an average of the ratio of the two, by its linear part; of a median
the numbers at which the share of the rows below leaves the interval of a half. There is none of an average or a median of fewer
than two rows, nor of a median whose interval passes the end of the sample.
"""
import math


def draw(strata, size, draws):
    """So many of the members of the strata, which are lists, in proportion, but two of each that has two."""
    whole = sum(map(len, strata))
    wanted = [min(len(stratum), max(2, round(size * len(stratum) / whole))) for stratum in strata]
    return [(len(stratum), draws.sample(stratum, count)) for stratum, count in zip(strata, wanted)]


def error(strata, part):
    """The standard error of the total of what a part is of each chosen row."""
    variance = 0.0
    for size, count, numbers in strata:
        if count > 1:
            parts = [part(number) for number in numbers]
            squares = sum(one * one for one in parts) - sum(parts) ** 2 / count
            variance += size * (size - count) * max(squares, 0.0) / (count * (count - 1))
    return math.sqrt(variance)


def total(strata, part):
    return sum(size / count * sum(map(part, numbers)) for size, count, numbers in strata)


def one_of(_number):
    return 1


def number_of(number):
    return number


def around(middle, half):
    return middle - half, middle + half


def count_ends(strata, z):
    return around(total(strata, one_of), z * error(strata, one_of))


def sum_ends(strata, z):
    return around(total(strata, number_of), z * error(strata, number_of))


def average_ends(strata, z):
    if sum(len(numbers) for _, _, numbers in strata) < 2:
        return None
    rows = total(strata, one_of)
    middle = total(strata, number_of) / rows
    return around(middle, z * error(strata, lambda number: number - middle) / rows)


def quantile(weighted, share):
    """The least number such that so large a share of the weight is at most there."""
    wanted, so_far = share * sum(weight for _, weight in weighted), 0.0
    for number, weight in weighted:
        so_far += weight
        if so_far >= wanted:
            return number
    return weighted[-1][0]


def median_ends(strata, z):
    weighted = sorted((number, size / count) for size, count, numbers in strata for number in numbers)
    if len(weighted) < 2:
        return None
    middle = quantile(weighted, 0.5)
    half = z * error(strata, lambda number: (number <= middle) - 0.5) / total(strata, one_of)
    return (quantile(weighted, 0.5 - half), quantile(weighted, 0.5 + half)) if half < 0.5 else None


INTERVALS = {"count": count_ends, "sum": sum_ends, "avg": average_ends, "median": median_ends}
