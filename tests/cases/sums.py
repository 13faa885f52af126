"""The SHA-256 of the standard's rows of each code, computed from row files as docs/formats.md describes, and not copied from the code.
The rows themselves are not part of the repository, so the test looks for the digests in the program and its sources."""
import hashlib
import os
import re

SUMS = {
    ("normal", "1/4"): "da3d028b9e78829c688e93628bbba7e33252c2b78dded12d3b664bf119e07f09",
    ("normal", "1/3"): "d8c957217289db6f7ff073180445c5bdf6d025ef1d3aab176452553d980e6f2e",
    ("normal", "2/5"): "e21e25ce32014387aa4c54a363d80b760fc54c5352b5d4d37f81be515ca5f4ee",
    ("normal", "1/2"): "3eeb29f244995540352c91d0dc6155dcecc3368b3d87d73a63cd51f5305f7320",
    ("normal", "3/5"): "b9a0b0d154cc6d23178c873f3dd3cf0bef7191b2db855e93de3e309c303dd9f9",
    ("normal", "2/3"): "3d68c7cfae9fc6c04e6b2f532e6b82eb5af0ec40083aa0c7b206bc4cc6e75579",
    ("normal", "3/4"): "266d73d9d30c3ebb309455553b76f7d0a5fb1243bd714fb010eef4debe47afdb",
    ("normal", "4/5"): "ddb8f23a4007835cebf763c79d7ca634794c788b08f2ad78dccbd08739b28347",
    ("normal", "5/6"): "97484a6f989ee324bd8a37d7b130553aee3563c13b1a4b4af41ac725fcf66774",
    ("normal", "8/9"): "3da00af3559d60c8d61a0fcd886380d2e0c14546802a80ddcf7efe135a2efcbd",
    ("normal", "9/10"): "1d0e12f476e85be1d9f184abc861b09f7c42545d871ad5ebe30fd4083d410512",
    ("short", "1/4"): "4bbfcf49906583d21d99785a9976895a83bb1d24a968a697e0e1568916a340bb",
    ("short", "1/3"): "5400130514c5e545e0a983e1af0d15f176b7903fdff81c6853bf67acb723d0a6",
    ("short", "2/5"): "ebec209fec1d497852938712d0b12353b76acb6949726453d5ba4afb11392db1",
    ("short", "1/2"): "79d22a40aecdf897e292806fde5a040064e08b4b22e3e4b7bef54d6e55bebc37",
    ("short", "3/5"): "911faa21ae69a6c08e2ab89f08bc661774fc11716a1671a63798238ef49461b6",
    ("short", "2/3"): "3d9d1c2630c154d85792ed21ec890dd8a11defdbf735bd6a37d197f5bdb3336d",
    ("short", "3/4"): "185d8411612509a69ed2af64b8b219bfd8256c669c44f5f5f77df054c5ce58e6",
    ("short", "4/5"): "f0099efd14c7e98d799826c9d28e613a13c1a40bfe9c30a9f87171af74d31eaa",
    ("short", "5/6"): "041b9ab63057ebfc67de98c28017fd6737e92f0d22bcb427d9788adf8d36f5e7",
    ("short", "8/9"): "17262a5599d900c39506adf4c6557c6fcfa581aa0d1d37b472139d61fe1caedb",
}

# How many rows the table of each code has, and the first digits of the SHA-256 of their digests' digits, computed from row files too.
ROWS = [
    (45, "e04c4812994034e7"),
    (60, "c459052da84d0d9a"),
    (72, "a5f9bfb1238b98d5"),
    (90, "de1471011565fc8c"),
    (108, "d99b20fee46efb5c"),
    (120, "6947f15cbe0583d7"),
    (135, "39c9037800578d32"),
    (144, "d1702832a06f32c0"),
    (150, "a09ab55439a4dda7"),
    (160, "f490305b186ecda2"),
    (162, "9af4d9a8afcc3c5e"),
    (9, "3865786bcabe95d2"),
    (15, "cad9351d3165013c"),
    (18, "79f0a54aed420719"),
    (20, "395dee7b9a4ab216"),
    (27, "321a356807289b60"),
    (30, "b0f1717f9452bd50"),
    (33, "3f887e79489b641b"),
    (35, "0faf8325d5929e91"),
    (37, "ce1faad04d068673"),
    (40, "014f6e93c984c36e"),
]


def told_rows(path):
    """The same of the digests of rows in a source."""
    with open(path, encoding="utf-8") as file:
        tables = [re.findall("0x([0-9a-f]{8})", table) for table in re.findall(r"&\[\s*(0x[0-9a-fx,\s]*)\]", file.read())]
    return [(len(table), hashlib.sha256("".join(table).encode()).hexdigest()[:16]) for table in tables]


def told(path):
    """The digests in a source, in the order of `SUMS`: normal frames first, rising code rates."""
    with open(path, encoding="utf-8") as file:
        found = re.findall('"([0-9a-f]{64})"', file.read())
    return dict(zip(SUMS, found)) if len(found) == len(SUMS) else found


def noted_rates(path):
    """The code rate in the comment after each digest."""
    with open(path, encoding="utf-8") as file:
        return re.findall(r'"[0-9a-f]{64}", // (\d+/\d+)', file.read())


def sources(top):
    return [os.path.join(top, "crates/s2_table", name) for name in ("src/sums.rt", "specs/Sums.antt")]
