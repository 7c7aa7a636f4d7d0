"""SciPy and the library read each other's Matrix Market texts.

    python3 examples/python/matrices.py PROGRAM

PROGRAM is examples/c/matrix.c, built. SciPy reads what the library writes; the library
reads what SciPy writes with symmetry="general" and field="integer", and refuses what
SciPy writes otherwise. Prints what was compared, and ends with 1 if something differs.
"""

import io
import subprocess
import sys

import numpy
import scipy
import scipy.io
import scipy.sparse

MOST_TANKS = 8
LIMIT = 32_767
# where a figure gets a digit more, and the limits
EDGES = [0, 1, -1, 9, 10, -9, -10, 99, 100, -99, -100, 999, 1_000, -999, -1_000, 9_999, 10_000, -9_999, -10_000,
         LIMIT - 1, LIMIT, 1 - LIMIT, -LIMIT]
# SciPy puts an empty comment line in where it is given no comment
COMMENTS = ["", "levers in centimetres", "two lines:\n%% 8 8", "\r"]


# ---------------------------------------------------------------- the library, through the C example


def output(words, given=b""):
    return subprocess.run(words, input=given, stdout=subprocess.PIPE, check=True).stdout


def library_text(program, matrix):
    words = [str(figure) for figure in matrix.flatten().tolist()]
    return output([program, "--write", str(len(matrix)), *words])


def library_rows(program, text):
    """What the program prints for a text: the coefficients, a row a line, or the refusal."""
    return output([program, "/dev/stdin"], text).decode()


def rows(matrix):
    return "".join(" ".join(map(str, row)) + "\n" for row in matrix.tolist())


# ---------------------------------------------------------------- SciPy


def scipy_text(matrix, **options):
    file = io.BytesIO()
    scipy.io.mmwrite(file, matrix, **options)
    return file.getvalue()


def scipy_matrix(text):
    """The matrix, which has to be square, of whole numbers and without symmetry."""
    height, width, _, *form = scipy.io.mminfo(io.BytesIO(text))
    assert height == width and form == ["array", "integer", "general"], form
    return scipy.io.mmread(io.BytesIO(text))


# ---------------------------------------------------------------- what is compared


def edge_matrices():
    """For each n the edges, in every place; symmetric matrices too."""
    for n in range(1, MOST_TANKS + 1):
        yield numpy.eye(n, dtype=int)
        for edge in EDGES:
            yield numpy.full((n, n), edge)
        for start in range(len(EDGES)):
            figures = [EDGES[(start + place) % len(EDGES)] for place in range(n * n)]
            yield numpy.array(figures).reshape(n, n)


def every_coefficient():
    """Matrices of eight tanks that hold each coefficient there is."""
    figures = [*range(-LIMIT, LIMIT + 1), 0]
    return list(numpy.array(figures).reshape(-1, MOST_TANKS, MOST_TANKS))


def general(matrix, comment):
    return scipy_text(matrix, symmetry="general", field="integer", comment=comment)


def check_both_ways(program, matrix, comments):
    """What differs, in one line each."""
    text = library_text(program, matrix)
    if not numpy.array_equal(scipy_matrix(text), matrix):
        yield f"SciPy reads otherwise: {text}"
    for comment in comments:
        text = general(matrix, comment)
        if library_rows(program, text) != rows(matrix):
            yield f"the library reads otherwise: {text}"


# ---------------------------------------------------------------- what is refused


def refused_forms():
    """What SciPy writes otherwise: in words, its text, and the refusal due."""
    any_matrix, symmetric = numpy.array([[1, -2], [3, 4]]), numpy.array([[1, 3], [3, 4]])
    sparse = scipy.sparse.coo_matrix(any_matrix)
    yield "a symmetric matrix, symmetry not given", scipy_text(symmetric), 11
    yield "one tank, symmetry not given", scipy_text(numpy.array([[5]])), 11
    yield "a skew-symmetric matrix, symmetry not given", scipy_text(numpy.array([[0, 3], [-3, 0]])), 11
    yield "figures with a point", scipy_text(any_matrix.astype(float), symmetry="general"), 11
    yield "complex figures", scipy_text(any_matrix * 1j, symmetry="general"), 11
    yield "an unsigned type, field not given", scipy_text(symmetric.astype("uint16"), symmetry="general"), 11
    yield "a sparse matrix", scipy_text(sparse, symmetry="general", field="integer"), 11
    yield "a pattern", scipy_text(sparse, symmetry="general", field="pattern"), 11
    yield "two rows, three columns", general(numpy.array([[1, 2, 3], [4, 5, 6]]), ""), 11
    yield "nine tanks", general(numpy.eye(9, dtype=int), ""), 11
    for figure in (LIMIT + 1, -LIMIT - 1, 99_999, 100_000, 10 ** 18):
        yield f"the figure {figure}", general(numpy.array([[1, 2], [figure, 4]]), ""), 12


def check_refused(program):
    for words, text, due in refused_forms():
        found = library_rows(program, text).strip()
        print(f"  {found}  {text.splitlines()[0].decode()}  ({words})")
        if found != f"refused {due}":
            yield f"refused {due} is due: {text}"


def main(program):
    found, edges, every = [], list(edge_matrices()), every_coefficient()
    for matrix in edges:
        found += check_both_ways(program, matrix, COMMENTS)
    for matrix in every:
        found += check_both_ways(program, matrix, COMMENTS[:1])
    found += check_refused(program)
    for message in found:
        print(message)
    count, version = len(edges) + len(every), scipy.__version__
    print(f"scipy: {count} matrices written and read both ways with SciPy {version}, {len(found)} differences")
    return 1 if found else 0


if __name__ == "__main__":
    if len(sys.argv) != 2:
        sys.exit("usage: python3 examples/python/matrices.py PROGRAM")
    sys.exit(main(sys.argv[1]))
