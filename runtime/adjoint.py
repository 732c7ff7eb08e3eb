"""Calls units of a shared library from Python, by keywords.

    runtime/build libheat.so heat.f heat_b.f

    from adjoint import Library
    heat = Library("./libheat.so", "heat.f", "heat_b.f")
    after = heat.heat_b(n=5, m=3, u=[0, 1, 4, 2, 0], vb=[0] * 5, ub=[1, 1, 1, 1, 1])
    print(after["ub"])

A call gives each dummy's value after it, by its name in small letters. What isn't given is 0, arrays in all elements. A scalar is an int. An array is given as a list of its elements in
storage order, the first subscript varying fastest, or as a NumPy array of its shape and of integers. Where one of the arguments is a NumPy array, all arrays come back as NumPy arrays of their shapes, else as lists.
Nothing that is given is changed: what comes back is new.
An argument that no dummy has, a number beyond 64 bits or one that isn't whole, and an array of another length or shape than its declaration says are refused by a Python exception. What stops a compiled program (docs/RUNNING.md, "Traps")
ends the Python process too, so a model's data should be sound. All calls of a library share one tape: two threads mustn't call it at a time.
"""
import ctypes
import operator
import os
import re

try:
    import numpy
except ImportError:
    numpy = None

LEAST, GREATEST = -2 ** 63, 2 ** 63 - 1


def _statements(text):
    """The statements in capitals and without blanks; comments and data left out."""
    joined = []
    for line in text.split("\n"):
        line = line.rstrip("\r")
        if line[:5].upper() == "$DATA":
            break
        if line[:1] in ("C", "c", "*") or not line[:72].strip(" "):
            continue
        if not line[:5].strip(" ") and line[5:6] not in ("", " ", "0"):
            joined[-1] += line[6:72]
        else:
            joined.append(line[6:72])
    return [x.replace(" ", "").upper() for x in joined]


class Unit:
    """A unit of a library: its dummies in order, and the extents of those that are arrays."""

    def __init__(self, name, dummies):
        self.name, self.dummies, self.extents = name, dummies, {}
        self.call = None

    def declare(self, items):
        for name, extents in re.findall(r"([A-Z][A-Z0-9_]*)(?:\(([A-Z0-9_,]*)\))?", items):
            if extents and name.lower() in self.dummies:
                self.extents[name.lower()] = extents.lower().split(",")

    def __call__(self, **given):
        for name in given:
            if name not in self.dummies:
                raise TypeError(f"{self.name} has no dummy {name}: its dummies are {', '.join(self.dummies)}")
        held = {name: _Word(name, given.get(name, 0)) for name in self.dummies if name not in self.extents}
        as_numpy = any(_is_numpy(value) for value in given.values())
        for name, extents in self.extents.items():
            shape = [held[x].value() if x in held else int(x) for x in extents]
            held[name] = (_Shaped if as_numpy else _Elements)(name, given.get(name), shape)
        self.call(*(held[name].place for name in self.dummies))
        return {name: held[name].value() for name in self.dummies}


class _Word:
    """A scalar while the unit runs."""

    def __init__(self, name, value):
        self.place = (ctypes.c_int64 * 1)(_word(name, value))

    def value(self):
        return self.place[0]


class _Elements:
    """An array while the unit runs, whose elements come back as a list."""

    def __init__(self, name, value, shape):
        count = _count(name, shape)
        values = [0] * count if value is None else [_word(name, x) for x in value]
        if len(values) != count:
            raise ValueError(f"{name} has {count} elements, not {len(values)}")
        self.place = (ctypes.c_int64 * count)(*values)

    def value(self):
        return list(self.place)


class _Shaped:
    """An array while the unit runs, which comes back as a NumPy array."""

    def __init__(self, name, value, shape):
        if not _is_numpy(value):
            elements = numpy.array(_Elements(name, value, shape).value(), dtype=numpy.int64)
            self.array = elements.reshape(shape, order="F")
        else:
            _count(name, shape)
            if list(value.shape) != shape:
                raise ValueError(f"{name} has the shape {tuple(shape)}, not {value.shape}")
            if value.dtype.kind not in "iu":
                raise TypeError(f"{name}: an array of {value.dtype} isn't one of integers")
            # only these hold numbers that a word doesn't
            if value.dtype.kind == "u":
                _word(name, value.max())
            self.array = numpy.array(value, dtype=numpy.int64, order="F")
        self.place = self.array.ctypes.data_as(ctypes.POINTER(ctypes.c_int64))

    def value(self):
        return self.array


def _is_numpy(value):
    return numpy is not None and isinstance(value, numpy.ndarray) and value.ndim > 0


def _word(name, value):
    try:
        value = operator.index(value)
    except TypeError:
        raise TypeError(f"{name}: {value!r} is no whole number") from None
    if not LEAST <= value <= GREATEST:
        raise OverflowError(f"{name}: {value} is no number of 64 bits")
    return value


def _count(name, shape):
    """How many elements an array of this shape has."""
    count = 1
    for extent in shape:
        if extent < 1:
            raise ValueError(f"{name} has the extent {extent}")
        count *= extent
    return count


class Library:
    """The units that texts have, in a shared library that runtime/build made of them; each is a method with the unit's name in small letters."""

    def __init__(self, path, *texts):
        # a name without a folder would be looked for elsewhere
        self._loaded = ctypes.CDLL(os.path.abspath(path))
        for text in texts:
            # comments may have any bytes, and a line ends with a line feed alone
            with open(text, "rb") as file:
                self._add(file.read().decode("latin-1"))

    def _add(self, text):
        unit = None
        for statement in _statements(text):
            heading = re.match(r"SUBROUTINE([A-Z][A-Z0-9_]*)(?:\((.*)\))?$", statement)
            declaration = re.match(r"INTEGER(?:\*8)?([A-Z][^=]*)$", statement)
            if heading:
                unit = Unit(heading[1].lower(), [x.lower() for x in (heading[2] or "").split(",") if x])
                # gfortran's name for a subroutine that is no module's
                unit.call = getattr(self._loaded, unit.name + "_")
                unit.call.restype = None
                setattr(self, unit.name, unit)
            elif declaration and unit:
                unit.declare(declaration[1])
