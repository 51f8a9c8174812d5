"""What `panel-order` does for people: night sheets, pages that print, spreadsheets in and out. Run by `panel-order`, not by hand."""
import sys

if sys.version_info < (3, 8):
    sys.stderr.write("panel-order: this needs Python 3.8 or later, and python3 is %d.%d here\n" % sys.version_info[:2])
    sys.exit(2)

try:
    from answers import main

    sys.exit(main(sys.argv[1:]))
except KeyboardInterrupt:
    sys.exit(130)
