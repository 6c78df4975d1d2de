"""An answer as lines for people, as JSON or as CSV."""

import csv
import io
import json
from dataclasses import dataclass


@dataclass(frozen=True)
class Table:
    """Rows under a name. A column that is empty in every row is not shown to people."""

    name: str
    columns: tuple
    rows: list

    def as_text(self):
        shown = [i for i, _ in enumerate(self.columns) if any(row[i] != "" for row in self.rows)]
        lines = [[self.columns[i] for i in shown]] + [[str(row[i]) for i in shown] for row in self.rows]
        widths = [max(len(line[i]) for line in lines) for i in range(len(shown))]
        is_text = [any(isinstance(row[i], str) for row in self.rows) for i in shown]
        aligned = [
            "  ".join(
                word.ljust(width) if text else word.rjust(width) for word, width, text in zip(line, widths, is_text)
            ).rstrip()
            for line in lines
        ]
        return "".join(line + "\n" for line in aligned)

    def as_csv(self):
        out = io.StringIO()
        writer = csv.writer(out, lineterminator="\n")
        writer.writerow(self.columns)
        writer.writerows(self.rows)
        return out.getvalue()

    def as_objects(self):
        return [dict(zip(self.columns, row)) for row in self.rows]


@dataclass(frozen=True)
class Answer:
    """Named values, and a table where there is one."""

    values: dict
    table: Table = None

    def rendered(self, form):
        if form == "json":
            table = {} if self.table is None else {self.table.name: self.table.as_objects()}
            return json.dumps({**self.values, **table}, indent=1, ensure_ascii=False) + "\n"
        if form == "csv":
            return self.table.as_csv()
        lines = "".join(f"{name.replace('_', ' ')} {value}\n" for name, value in self.values.items())
        return lines + (self.table.as_text() if self.table is not None and self.table.rows else "")


def refused(number, place, words, form):
    """A refusal in this form; for people without the words, which go to standard error."""
    if form == "json":
        return Answer({"refused": number, "place": place, "words": words}).rendered(form)
    if form == "csv":
        return Table("refusals", ("refused", "place"), [(number, place)]).as_csv()
    return f"refused {number} {place}\n"
