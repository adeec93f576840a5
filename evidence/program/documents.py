"""Reads PDF documents as a viewer would, by PDF 1.4, 3.4 and 3.6: from the end to the table of
objects, from there to the catalog, the tree of pages and the contents of each page."""
import re


def objects_of(file):
    """Returns the trailer, and the texts of objects by number, which together fill the file."""
    at = int(re.fullmatch(rb".*\nstartxref\n(\d+)\n%%EOF\n", file, re.DOTALL)[1])
    size = int(re.match(rb"xref\n0 (\d+)\n0000000000 65535 f \n", file[at:])[1])
    table = file.index(b"0000000000", at) + 20
    entries = [file[table + 20 * it:table + 20 * it + 20] for it in range(size - 1)]
    starts = [int(re.fullmatch(rb"(\d{10}) 00000 n \n", it)[1]) for it in entries]
    ends = dict(zip(sorted(starts), [*sorted(starts)[1:], at]))
    texts = {number: re.fullmatch(b"%d 0 obj\n(.*)\nendobj\n" % number, file[start:ends[start]],
                                  re.DOTALL)[1] for number, start in enumerate(starts, 1)}
    trailer = file[table + 20 * (size - 1):]
    assert file[:min(starts)] == b"%PDF-1.4\n" and b"/Size %d/" % size in trailer
    return trailer, texts


def reference(name, text):
    return int(re.search(rb"/%s (\d+) 0 R" % name, text)[1])


def leaves_of(texts, node, parent, used):
    """Returns the numbers of the pages under a node, in order, each with the node above it."""
    kids, count = re.fullmatch(rb"<</Type/Pages%s/Kids\[([^]]*)\]/Count (\d+)>>" % parent,
                               texts[node]).groups()
    numbers, leaves = [int(it) for it in re.findall(rb"(\d+) 0 R\s*", kids)], []
    for number in numbers:
        if texts[number].startswith(b"<</Type/Pages"):
            used.add(number)
            leaves += leaves_of(texts, number, b"/Parent %d 0 R" % node, used)
        else:
            leaves.append((number, node))
    assert int(count) == len(leaves) and 0 < len(numbers) <= 8191
    return leaves


def pages_of(file):
    """Returns a document's information, and each page's dictionary and contents; that is all."""
    trailer, texts = objects_of(file)
    assert trailer.startswith(b"trailer\n<<")
    root, about = reference(b"Root", trailer), reference(b"Info", trailer)
    top = reference(b"Pages", texts[root])
    used, pages = {root, about, top}, []
    for number, above in leaves_of(texts, top, b"", used):
        inside = reference(b"Contents", texts[number])
        length, rest = re.fullmatch(rb"<</Length (\d+)>>\nstream\n(.*)", texts[inside],
                                    re.DOTALL).groups()
        assert reference(b"Parent", texts[number]) == above
        assert rest[int(length):] == b"\nendstream"
        pages.append((re.sub(rb" \d+ 0 R", b"", texts[number]), rest[:int(length)]))
        used |= {number, inside}
    assert used == set(texts)
    return texts[about], pages
