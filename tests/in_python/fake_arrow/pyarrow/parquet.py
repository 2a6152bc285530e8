"""Tables as lines of JSON, where pyarrow writes Parquet."""

import json


class ParquetWriter:
    def __init__(self, where, schema):
        self.file, self.schema = open(where, "w"), schema

    def write_table(self, table):
        assert table.schema is self.schema
        for row in table.rows:
            self.file.write(json.dumps({name: None if row[name] is None else str(row[name]) for name in self.schema.names}) + "\n")

    def close(self):
        self.file.close()


def read_table(where):
    return Rows([json.loads(line) for line in open(where)])


class Rows:
    def __init__(self, rows):
        self.rows = rows

    def to_pylist(self):
        return self.rows
