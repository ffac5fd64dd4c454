"""The script of examples/listings in CPython, row by row: the yardstick of bench/listings.

It gives the same output, the same report and the same line. A cell that is only carried along stays the field that it is.
"""
import csv
import sys

LOW, HIGH = -(2**127), 2**127 - 1


def read(field):
    if field == "":
        return None
    if field == "True":
        return True
    if field == "False":
        return False
    try:
        number = int(field)
    except ValueError:
        return field
    return number if LOW <= number <= HIGH and str(number) == field else field


def beds(x):
    facts = x["facts"]
    end = facts.find(" bds")
    if end < 0:
        return int(facts[:facts.find(" ,")])
    return int(facts[:end])


def sqft(x):
    facts = x["facts"]
    start = facts.rfind(" , ") + 3
    return int(facts[start:facts.find(" sqft")].replace(",", ""))


def price(x):
    return int(x["price"][1:].replace(",", ""))


def main():
    source, target = sys.argv[1:]
    rows = 0
    entries = {operator: [] for operator in range(2, 8)}
    words = {2: "withColumn", 3: "withColumn", 4: "withColumn", 5: "filter"}
    with open(source, newline="", encoding="utf-8-sig") as records, open(target, "w", newline="") as out:
        reader = csv.reader(records)
        writer = csv.writer(out, lineterminator="\n")
        header = next(reader)
        writer.writerow(["title", "beds", "sqft", "price"])
        for number, fields in enumerate(reader, 1):
            x = {name: read(field) for name, field in zip(header, fields)}
            operator = 2
            try:
                try:
                    x["beds"] = beds(x)
                except ValueError:
                    x["beds"] = 0
                operator = 3
                x["sqft"] = sqft(x)
                operator = 4
                x["price"] = price(x)
                operator = 5
                if not x["price"] < 1000000:
                    continue
            except Exception as raised:
                entries[operator].append(f"{operator},{words[operator]},{type(raised).__name__},1:{number}\n")
                continue
            writer.writerow([x["title"], x["beds"], x["sqft"], x["price"]])
            rows += 1
    with open(target + ".exceptions.csv", "w", newline="") as report:
        report.write("operator,kind,class,row\n")
        for operator in entries:
            report.writelines(entries[operator])
    print(f"rows {rows} exceptions {sum(map(len, entries.values()))}")


main()
