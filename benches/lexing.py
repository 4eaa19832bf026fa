"""How the time of reading tokens grows: each text is refused by a bad byte at its end, so only tokens are read."""

from growth import measure

UNITS = {
    "names": b"alpha_beta_gamma delta1234 ",
    "numbers": b"1234567 0x89abcdefu 17ull ",
    "signs": b"+=->>=<<&&||::...",
    "strings": b'"some text with \\n and \\" in it" ',
    "comments": b"/* a comment * with stars */ // and a line\n",
    "blanks": b" \t\r\n\f",
    "quotes": b'"a\\\\b" ',
}

measure({name: (b"", unit, b"\n@") for name, unit in UNITS.items()})
