"""Draws a text as a PNG file, and reads that."""
import sys

import goqlanis

goqlanis.encode_text(sys.argv[1]).save("drawn.png")
sys.exit(goqlanis.read("drawn.png")[0].text != sys.argv[1])
