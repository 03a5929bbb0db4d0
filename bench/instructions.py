"""instructions.py WORK [quick]: instructions a call, product beside baseline, as a Markdown table. callgrind counts
them in the drivers that bench/run has built in WORK; the count repeats exactly. quick leaves out the larger tables."""
import re
import subprocess
import sys

work = sys.argv[1]
quick = sys.argv[2:] == ["quick"]
CALLS = {
    "op_find_hit": "find, hit",
    "op_find_miss": "find, miss",
    "op_retrieve_short": "retrieve, short list",
    "op_retrieve_long": "retrieve, long list",
    "op_retrieve_overflow": "retrieve, overflow block",
    "op_enter": "enter",
    "op_relabel": "relabel",
    "op_delete": "delete",
    "op_check": "check, an entry",
    "op_find_text_hit": "find_text, hit",
    "op_find_text_miss": "find_text, miss",
    "op_read_text": "read_text",
    "op_write_text": "write_text",
    "op_read_tail": "read_text, dotted tail",
    "op_read_bare": "read_text, bare dotted",
    "op_write_mapped": "write_text, mapped",
    "op_page_first": "page, the first",
    "op_page_middle": "page, the middle one",
    "op_page_last": "page, the last",
    "op_page_beyond": "page, one beyond, refused",
}


def output(*words):
    return subprocess.run(words, check=True, capture_output=True, text=True).stdout


def annotated(inclusive):
    """Instructions of each operation, with or without those of the functions that it calls."""
    report = output("callgrind_annotate", "--threshold=100", "--inclusive=" + inclusive, work + "/callgrind")
    lines = re.findall(r"^ *([\d,]+) *(?:\([^)]*\))? *\S*:(op_\w+)", report, re.MULTILINE)
    return {name: int(count.replace(",", "")) for count, name in lines}


def instructions(driver, *words):
    """Instructions a call of each operation, without those of the loop around the call."""
    callgrind = ["valgrind", "-q", "--tool=callgrind", "--callgrind-out-file=" + work + "/callgrind"]
    counted = dict(line.split() for line in output(*callgrind, work + "/" + driver, "count", *words).splitlines())
    whole, own = annotated("yes"), annotated("no")

    def each(name):
        return (whole[name] - own[name]) / int(counted["entries" if name == "op_check" else "calls"])

    return {name: each(name) for name in whole}


def rows(title, driver, *words):
    product, baseline = (instructions(driver, library, *words) for library in ("product", "baseline"))
    for name in CALLS:
        if name in product:
            a, b = product[name], baseline[name]
            print(f"| {title} | {CALLS[name]} | {a:.0f} | {b:.0f} | {a / b:.2f} |")


def on_tables(driver):
    for table in output(work + "/" + driver, "tables").splitlines()[:1 if quick else None]:
        rows(table, driver, table)


print("| table | call | product | baseline | product / baseline |\n|---|---|---|---|---|")
on_tables("calls")
rows("the program's, n 800", "text")
on_tables("pages")
