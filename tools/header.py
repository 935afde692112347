"""What include/pdbmerge.h tells."""
import re
from usage import ROOT

HEADER = ROOT / 'include' / 'pdbmerge.h'


def version():
    """The version, as 0.2.0."""
    number = int(re.search(r'#define PDBMERGE_VERSION (0x[0-9a-fA-F]+)', HEADER.read_text())[1], 16)
    return '.'.join(map(str, number.to_bytes(3, 'big')))


def calls():
    """The names of the calls, in the order of the header."""
    return re.findall(r'^uint32_t (pdbmerge_\w+)\(', HEADER.read_text(), re.MULTILINE)
