"""The sums of two columns in CPython, row by row: the yardstick of bench/sums.

It does the job of the script csv(IN).withColumn("s", lambda x: x["a"] + x["b"]).tocsv(OUT): the same output, the same
report and the same line.
"""
import csv
import sys

LOW, HIGH = -(2**127), 2**127 - 1


def read(field):
    if field == "":
        return None
    if field == "True":
        return True
    if field == "False":
        return False
    try:
        number = int(field)
    except ValueError:
        return field
    return number if LOW <= number <= HIGH and str(number) == field else field


def added(a, b):
    total = a + b
    if type(total) is int and not LOW <= total <= HIGH:
        raise OverflowError
    return total


def main():
    source, target = sys.argv[1:]
    rows = reported = 0
    with open(source, newline="", encoding="utf-8-sig") as records, open(target, "w", newline="") as out:
        with open(target + ".exceptions.csv", "w", newline="") as report:
            reader = csv.reader(records)
            writer = csv.writer(out, lineterminator="\n")
            report.write("operator,kind,class,row\n")
            header = next(reader)
            a, b = header.index("a"), header.index("b")
            writer.writerow(header + ["s"])
            for number, row in enumerate(reader, 1):
                try:
                    total = added(read(row[a]), read(row[b]))
                except (TypeError, OverflowError) as raised:
                    report.write(f"2,withColumn,{type(raised).__name__},1:{number}\n")
                    reported += 1
                    continue
                row.append("" if total is None else str(total))
                writer.writerow(row)
                rows += 1
    print(f"rows {rows} exceptions {reported}")


main()
