"""So much of pyarrow as the tables of a fleet call, with its words and types: a value that its column's type does not hold is refused."""

import decimal


class Field:
    """A type: whether it holds a value."""

    def __init__(self, holds):
        self.holds = holds


def string():
    return Field(lambda value: isinstance(value, str))


def int64():
    return Field(lambda value: type(value) is int and -(2**63) <= value < 2**63)


def decimal128(precision, scale):
    def holds(value):
        sign, digits, exponent = value.as_tuple()
        return isinstance(value, decimal.Decimal) and exponent >= -scale and len(digits) + exponent <= precision - scale

    return Field(holds)


class Schema:
    def __init__(self, fields):
        self.fields = dict(fields)
        self.names = list(self.fields)


def schema(fields):
    return Schema(fields)


class Table:
    def __init__(self, rows, schema):
        self.rows, self.schema = rows, schema

    @classmethod
    def from_pylist(cls, mapping, schema):
        for row in mapping:
            for name, field in schema.fields.items():
                if row[name] is not None and not field.holds(row[name]):
                    raise TypeError(f"{name} is {row[name]!r}")
        return cls(mapping, schema)
