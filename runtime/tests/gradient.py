"""The gradient of examples/network.f from Python, on the data of examples/network.data: python3 gradient.py LIBRARY network.f network_b.f."""
import sys
from pathlib import Path

sys.dont_write_bytecode = True
sys.path.insert(0, str(Path(__file__).resolve().parent.parent))
from adjoint import Library, numpy  # noqa: E402

library = Library(*sys.argv[1:])
v = list(range(1, 10))
w = [1, 0, 2, 0, 3, 0, -1, 0, 1]
x = [1, -1, 2]
print("Y", *library.net(n=3, v=v, w=w, x=x)["y"])
after = library.net_b(n=3, v=v, w=w, x=x, yb=[1, 1, 1])
for name in ("vb", "wb", "xb", "yb"):
    print(name.upper(), *after[name])


def refused(kind, **arguments):
    """Shows that a call is refused by this exception, before the unit runs."""
    try:
        library.net_b(**arguments)
    except kind as refusal:
        print(type(refusal).__name__)
    else:
        print("not refused:", arguments)


refused(TypeError, z=1)
refused(TypeError, n=3.0)
refused(TypeError, n=3, x=[1, 2, 2.5])
refused(ValueError, n=3, x=[1, 2])
refused(ValueError, n=0)
refused(OverflowError, n=3, x=[1, 2, 2 ** 63])


def with_numpy():
    """The same gradient by NumPy's arrays: of the shapes of the dummies, also where they are views, of other integers, or lists beside them."""
    def square(a):
        return numpy.array(a, dtype=numpy.int64).reshape((3, 3), order="F")

    given = square(v)
    columns = numpy.ascontiguousarray(square(w))
    every_other = numpy.array([1, 0, -1, 0, 2, 0], dtype=numpy.int32)[::2]
    again = library.net_b(n=numpy.int64(3), v=given, w=columns, x=every_other, yb=[1, 1, 1])
    for name, value in after.items():
        if name == "n":
            assert again[name] == 3
        else:
            wanted = square(value) if len(value) == 9 else numpy.array(value)
            assert again[name].dtype == numpy.int64 and again[name].shape == wanted.shape and (again[name] == wanted).all(), name
    # nothing that is given is changed, and what comes back is no part of it
    again["v"][0, 0] = 99
    assert (given == square(v)).all() and (columns == square(w)).all() and every_other.tolist() == x
    refused(ValueError, n=3, v=given.reshape(9))
    refused(ValueError, n=3, v=given, x=numpy.ones((3, 1), dtype=numpy.int64))
    refused(TypeError, n=3, x=numpy.ones(3))
    refused(OverflowError, n=3, x=numpy.array([1, 2, 2 ** 63], dtype=numpy.uint64))


if numpy is not None:
    with_numpy()
print("lists and NumPy's arrays" if numpy else "lists")
